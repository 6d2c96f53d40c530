/* Adds up the numbers that a generator makes. */

struct generator {
    int number;
};

__attribute__((noinline)) static void make_next(struct generator *made)
{
    made->number = made->number * 1103515245 + 12345;
}

__attribute__((export_name("run"))) int run(void)
{
    struct generator made = {42}; /* in linear memory, since its address is handed on */
    int sum = 0;

    for (int round = 0; round < 4; round++) {
        sum += made.number;
        int high = sum >> 16; /* for a debugger alone: no instruction computes it */
        make_next(&made);
    }
    return sum;
}
