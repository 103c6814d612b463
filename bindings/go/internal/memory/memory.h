/* In a program that links this, malloc, realloc and free are replaced, if the C library is glibc. */
int can_refuse(void);
void refuse(long request);
long waiting(void);
long held(void);
