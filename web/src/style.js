// Colours and sizes of pictures: what python/pigale/style.json has. tools/web --anew makes this file.

export const STYLE = {
  "light": {
    "page": "#f4f5f7", "card": "#d5d9df", "text": "#1b1f24", "soft": "#5b6470", "warn": "#a4351f",
    "ground": "#ffffff", "line": "#2f3640", "thin": "#bcc3cd", "number": "#14181f",
    "dot": "#14539a", "on-dot": "#ffffff", "even": "#c2402b", "odd": "#12775a",
    "tint-0": "#f6d3b9", "tint-1": "#c3daf0", "tint-2": "#cde6c1", "tint-3": "#f5e6a2", "tint-4": "#decbec", "tint-5": "#d9dce0",
    "face-3": "#f9e7ab", "face-4": "#c3e3c6", "face-5": "#f5b297", "face-6": "#d5e6f6", "face-7": "#dccbed",
    "face-8": "#a8d8d3", "face-9": "#f4c9dc", "face-10": "#bdcbee", "face-more": "#e6e1d6"
  },
  "dark": {
    "page": "#121418", "card": "#343a43", "text": "#e4e7eb", "soft": "#9aa4b1", "warn": "#ff9b85",
    "ground": "#1a1d22", "line": "#b6beca", "thin": "#4d5560", "number": "#f1f3f6",
    "dot": "#78b8f8", "on-dot": "#10151b", "even": "#ff8573", "odd": "#5ccb9c",
    "tint-0": "#6a4630", "tint-1": "#2c4a69", "tint-2": "#375a2e", "tint-3": "#615722", "tint-4": "#523d66", "tint-5": "#494d53",
    "face-3": "#5f5526", "face-4": "#2f5638", "face-5": "#7f4530", "face-6": "#27394e", "face-7": "#4a3a60",
    "face-8": "#23534f", "face-9": "#633a4e", "face-10": "#343f69", "face-more": "#45423b"
  },
  "font": "Helvetica, Arial, sans-serif",
  "side": {"least": 400, "most": 1000, "from": 30, "each": 3},
  "margin": 24,
  "sizes": {
    "dot": {"most": 4.6, "root": 22},
    "line": {"most": 1.6, "root": 7.5},
    "number": {"most": 13, "root": 62}
  }
};
