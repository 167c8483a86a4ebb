#include <stdio.h>

int main(void)
{
    return puts("words") < 0;
}
