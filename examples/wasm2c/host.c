/* What the C of wasm2c runs on: main, and the two functions of the run time that dwarfcarry's sections name. */
#include <stdio.h>
#include "program.h"

static Z_program_instance_t instance;
static Z_program_instance_t *current = &instance; /* so that an address can be resolved before set_mem is called */

/* Makes an instance the one in whose memory addresses are resolved. */
void set_mem(Z_program_instance_t *context)
{
    current = context;
}

/* The native address of an address in the linear memory. */
void *resolve_mem(const uint32_t *address)
{
    return current->w2c_memory.data + *address;
}

int main(void)
{
    wasm_rt_init();
    Z_program_init_module();
    Z_program_instantiate(&instance);
    printf("%u\n", Z_programZ_run(&instance));
    Z_program_free(&instance);
    wasm_rt_free();
    return 0;
}
