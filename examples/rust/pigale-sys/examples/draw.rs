//! Draws the complete graph of four vertices by Schnyder's method, in four threads at one time.
use pigale_sys::{pigale_numbers, pigale_schnyder, pigale_status, run, PIGALE_OK, PIGALE_ONE_SIDED};

/// Returns the place of each vertex of a plane map, or the status that says why there is none and its numbers.
fn schnyder(lists: &[Vec<u16>]) -> Result<Vec<(i32, i32)>, (pigale_status, pigale_numbers)> {
    let neighbours = lists.concat();
    let ends: Vec<usize> = lists.iter().scan(0, |end, list| { *end += list.len(); Some(*end) }).collect();
    let (mut x, mut y, mut found) = (vec![0; ends.len()], vec![0; ends.len()], pigale_numbers::default());
    let status = unsafe {
        pigale_schnyder(
            ends.as_ptr(), ends.len(), neighbours.as_ptr(), neighbours.len(),
            x.as_mut_ptr(), x.len(), y.as_mut_ptr(), y.len(), &mut found,
        )
    };
    if status == PIGALE_OK { Ok(x.into_iter().zip(y).collect()) } else { Err((status, found)) }
}

fn main() {
    let lists = [vec![1, 2, 3], vec![0, 3, 2], vec![0, 1, 3], vec![0, 2, 1]];
    let threads: Vec<_> = (0..4).map(|_| { let lists = lists.clone(); std::thread::spawn(move || schnyder(&lists).unwrap()) }).collect();
    let drawn: Vec<_> = threads.into_iter().map(|it| it.join().unwrap()).collect();
    assert!(drawn.iter().all(|it| *it == drawn[0]));
    println!("{:?}", drawn[0]);
    let (status, found) = schnyder(&[vec![1], vec![]]).unwrap_err();
    assert_eq!((status, found.first, found.second), (PIGALE_ONE_SIDED, 0, 1));
    println!("the list of vertex 0 holds 1, whose list does not hold 0");
    print!("{}", String::from_utf8(run("gen --size 5 --number 1", b"").1).unwrap());
}
