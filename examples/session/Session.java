// Judges drawings by one program that stays: a class Session, and a thousand drawings of a house.
//
//   java Session.java PROGRAM [NUMBER]
import java.io.BufferedReader;
import java.io.IOException;
import java.io.InputStreamReader;
import java.io.OutputStream;
import java.nio.charset.StandardCharsets;
import java.util.ArrayList;
import java.util.List;
import java.util.TreeMap;

public class Session implements AutoCloseable {
    private final String program;
    private Process running;
    private OutputStream given;
    private BufferedReader told;
    private int left;  // bytes that the program still reads

    public Session(String program) {
        this.program = program;
    }

    /** The verdict on a figure, whose lines are closed: what stands behind the figure's number. */
    public String verify(String figure) throws IOException {
        byte[] text = figure.getBytes(StandardCharsets.US_ASCII);
        if (text.length > left) close();
        if (running == null) {
            running = new ProcessBuilder(program, "verify").redirectError(ProcessBuilder.Redirect.INHERIT).start();
            given = running.getOutputStream();
            told = new BufferedReader(new InputStreamReader(running.getInputStream(), StandardCharsets.US_ASCII));
            left = 1 << 24;
        }
        left -= Math.min(left, text.length);
        String line;
        try {
            given.write(text);
            given.flush();
        } finally {
            line = told.readLine();
        }
        if (line == null || line.startsWith("stop")) {
            close();
            throw new IOException("the program has no verdict: " + line);
        }
        return line.split(" ", 3)[2];
    }

    /** Ends the program. A later verdict starts another one. */
    @Override
    public void close() throws IOException {
        if (running == null) return;
        running = null;
        left = 0;
        told.close();
        given.close();
    }

    /** The half of the directions, clockwise from west, in which one lies; no direction comes last. */
    private static int half(int x, int y) {
        return x == 0 && y == 0 ? 2 : y > 0 || y == 0 && x < 0 ? 0 : 1;
    }

    /** A drawing as a figure of `shift`, with vertices of degree zero above it, so that nobody asks for the outer face. */
    public static String figureOf(int[] xs, int[] ys, int[][] edges) {
        int left = Integer.MAX_VALUE, low = Integer.MAX_VALUE, width = 0, height = 0;
        for (int x : xs) left = Math.min(left, x);
        for (int y : ys) low = Math.min(low, y);
        for (int x : xs) width = Math.max(width, x - left);
        for (int y : ys) height = Math.max(height, y - low);
        List<List<Integer>> lists = new ArrayList<>();
        for (int x : xs) lists.add(new ArrayList<>());
        for (int[] edge : edges) {
            lists.get(edge[0]).add(edge[1]);
            lists.get(edge[1]).add(edge[0]);
        }
        int count = Math.max(xs.length + 1, Math.max((width + 5) / 2, height + 3));
        StringBuilder text = new StringBuilder("figure 1 shift " + count + "\n");
        for (int v = 0; v < count; v++) {
            if (v >= xs.length) {
                text.append(v + 1).append(" at ").append(v - xs.length).append(' ').append(count - 2).append(":\n");
                continue;
            }
            text.append(v + 1).append(" at ").append(xs[v] - left).append(' ').append(ys[v] - low).append(':');
            int x = xs[v], y = ys[v];
            lists.get(v).sort((a, b) -> {
                int halves = half(xs[a] - x, ys[a] - y) - half(xs[b] - x, ys[b] - y);
                long turn = (long) (xs[a] - x) * (ys[b] - y) - (long) (ys[a] - y) * (xs[b] - x);
                return halves != 0 ? halves : Long.signum(turn);
            });
            for (int u : lists.get(v)) text.append(' ').append(u + 1);
            text.append('\n');
        }
        return text.toString();
    }

    public static void main(String[] words) throws IOException {
        int[][] house = {{0, 1}, {1, 2}, {2, 3}, {3, 0}, {3, 4}, {4, 2}};
        TreeMap<String, Integer> found = new TreeMap<>();
        int z = 1;
        try (Session session = new Session(words.length > 0 ? words[0] : "pigale")) {
            for (int k = 0; k < (words.length > 1 ? Integer.parseInt(words[1]) : 1000); k++) {
                int[][] places = new int[2][5];
                for (int v = 0; v < 10; v++) {
                    z = z * 1103515245 + 12345;
                    places[v % 2][v / 2] = (z >>> 16) % 12;
                }
                String verdict = session.verify(figureOf(places[0], places[1], house));
                found.merge(verdict.split(" ")[0], 1, Integer::sum);
            }
        }
        found.forEach((name, number) -> System.out.println(name + " " + number));
    }
}
