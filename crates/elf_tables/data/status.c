/* A status. */
int status(void) { return 3; }
