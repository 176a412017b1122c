#include <stdio.h> /* printf */

/* Says hello. */
int main(void)
{
	printf("hello\n");
	return 0;
}
