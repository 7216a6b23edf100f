/* The functions and macros of C99 7.19 that pcc knows. */
#define EOF (-1)
#define NULL 0
int putchar(int c);
int getchar(void);
