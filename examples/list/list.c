/* Builds a linked list of squares and adds them up. */

struct node {
    int value;
    struct node *next;
};

static struct node nodes[8];
static int used;

/* A function without debugging information. */
__attribute__((nodebug)) static struct node *new_node(void)
{
    return &nodes[used++];
}

static struct node *squares(int count)
{
    struct node *head = 0;

    for (int index = 0; index < count; index++) {
        struct node *node = new_node();
        node->value = index * index;
        node->next = head;
        head = node;
    }
    return head;
}

static int sum(struct node *list)
{
    int total = 0;

    while (list) {
        total += list->value;
        list = list->next;
    }
    return total;
}

__attribute__((export_name("run"))) int run(void)
{
    struct node *list = squares(5);
    return sum(list);
}
