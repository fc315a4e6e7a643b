"""What tools/frames is made of: frames, their text, the runner's lines, a model that plays them, and its picture."""
