package shapes;

interface Right { }
