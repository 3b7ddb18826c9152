#include <livukoe.h>
#include <stdio.h>

int main(void)
{
    const uint16_t image[12] = {10, 10, 10, 10, 10, 50, 30, 10, 10, 10, 10, 90}; /* 4 x 3, the greatest grey is 255 */
    uint16_t out[12];
    uint32_t work[LIVUKOE_WORK_NUMBERS(12)];
    uint32_t refusal =
        livukoe_clean(LIVUKOE_SIDE_LIGHT, image, 12, 4, 3, 255, 4, 2, out, 12, work, LIVUKOE_WORK_NUMBERS(12));
    if (refusal != 0) {
        fprintf(stderr, "refused %u: %s\n", (unsigned)refusal, livukoe_refusal_text(refusal));
        return 1;
    }
    printf("pixel 5: %d\n", out[5]); /* 30: connectivity 4, limit 2 */
    return 0;
}
