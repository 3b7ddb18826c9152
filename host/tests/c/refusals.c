/* Prints the text of each refusal, and of numbers that no refusal has. */
#include <livukoe.h>
#include <stdio.h>

int main(void)
{
    for (uint32_t number = 0; number < 40; number++)
        printf("refused %u: %s\n", (unsigned)number, livukoe_refusal_text(number));
}
