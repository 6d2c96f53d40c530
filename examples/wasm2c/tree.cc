/* A tree of numbers, in which each stands once: made, counted and measured. */

struct node {
    int key;
    node *left, *right;
};

static node nodes[16];
static int used;

static int larger(int a, int b)
{
    return a > b ? a : b;
}

class tree {
    node *root = nullptr;
    int size = 0;

    static int depth_of(const node *top)
    {
        if (!top)
            return 0;
        int left = depth_of(top->left);
        int right = depth_of(top->right);
        return 1 + larger(left, right);
    }

public:
    bool insert(int key)
    {
        node **place = &root;
        while (node *found = *place) {
            if (found->key == key)
                return false;
            place = key < found->key ? &found->left : &found->right;
        }
        node *added = &nodes[used++];
        added->key = key;
        *place = added;
        size++;
        return true;
    }

    int depth() const
    {
        return depth_of(root);
    }

    int count() const
    {
        return size;
    }
};

extern "C" __attribute__((export_name("run"))) unsigned run()
{
    static const int keys[] = {50, 20, 80, 10, 90, 20, 30, 95};
    tree numbers;
    int refused = 0;

    for (int key : keys)
        if (!numbers.insert(key))
            refused++;
    return 100 * numbers.count() + 10 * numbers.depth() + refused;
}
