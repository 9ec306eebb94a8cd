/* The mean width of the fibres that fibres.c counts, in hundredths of a point, by floating point. */

volatile int fibres = 34, dark = 102;

int main(void)
{
    float width = (float)dark / (float)fibres;
    return (int)(100 * width);
}
