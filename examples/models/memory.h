/* What the units that stand for routines are written in. */
pascal char **NewHandle(long size);
pascal void BlockMove(char *from, char *to, long size);
