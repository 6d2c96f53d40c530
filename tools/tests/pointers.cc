/* A program with the types that dwarfcarry makes of pointers of WebAssembly, over a linear memory of its own. */
struct WasmtimeVMContext {
    unsigned char *memory;
};

template <typename T> struct WebAssemblyPtrWrapper {
    unsigned __ptr;
    T *ptr();
    T &operator*();
    T *operator->();
};

template <> struct WebAssemblyPtrWrapper<void> {
    unsigned __ptr;
};

template <typename T> struct WebAssemblyRefWrapper {
    unsigned __ptr;
    T *ptr();
    T &operator*();
    T *operator->();
};

struct node {
    int value;
    WebAssemblyPtrWrapper<node> next;
};

alignas(8) static unsigned char memory[64];
static WasmtimeVMContext context = {memory};

static inline __attribute__((always_inline)) int inlined(int number)
{
    WebAssemblyPtrWrapper<node> inner = {16};
    memory[63] = number; /* where the tests stop */
    return number + (inner.__ptr != 0);
}

int main()
{
    WasmtimeVMContext *__vmctx = &context;
    WebAssemblyPtrWrapper<node> first = {8}, none = {0};
    WebAssemblyRefWrapper<node> reference = {16};
    WebAssemblyPtrWrapper<char> text = {32};
    WebAssemblyPtrWrapper<void> untyped = {8};
    node *nodes = reinterpret_cast<node *>(memory);
    nodes[1] = {1, {16}};
    nodes[2] = {4, {0}};
    memory[32] = 'h', memory[33] = 'i';
    int sum = inlined(first.__ptr);
    return __vmctx->memory[sum] + none.__ptr + reference.__ptr + text.__ptr + untyped.__ptr == 99;
}
