struct Node {
  const char *name;
  Node *next;
  int values[3];
  Node &self() { return *this; }
  int sum(const int *more, int count) const;
};
int Node::sum(const int *more, int count) const {
  int total = 0;
  for (int i = 0; i < 3; ++i)
    total += values[i];
  for (int i = 0; i < count; ++i)
    total += more[i];
  return next ? total + next->sum(more, 0) : total;
}
using Row = const int (*)[4];
int last(Row rows, void *none, char **names, Node &node) {
  Node &own = node.self();
  return rows[1][3] + own.sum(*rows, 4) + (none ? 1 : names[0][0]);
}
