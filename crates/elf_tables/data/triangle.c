/* A triangle's area. */
int side = 3;

int area(int height) { return side * height / 2; }

int half_of_four(void) { return area(4) / 2; }
