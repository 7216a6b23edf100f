/* The function and the macros of C99 7.20 that pcc knows. */
#define NULL 0
#define EXIT_SUCCESS 0
#define EXIT_FAILURE 1
void exit(int status);
