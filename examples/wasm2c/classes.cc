// Classes with virtual functions and with a virtual base, and a class with a member that is an rvalue reference.

struct shape {
    int id;
    explicit shape(int number) : id(number) {}
    virtual int area() const { return 0; }
};

struct square : shape {
    int side;
    square(int number, int length) : shape(number), side(length) {}
    int area() const override { return side * side; }
};

struct named {
    int name = 7;
};

struct tagged : virtual named {
    int tag = 5;
};

struct holder {
    square &&held;
};

static int sum_of(const shape &seen, const holder &owner, const tagged &label)
{
    int area = seen.area();
    return area + owner.held.side + label.name + label.tag;
}

extern "C" __attribute__((export_name("run"))) int run()
{
    square four(1, 4);
    tagged label;
    holder owner{static_cast<square &&>(four)};
    int sum = sum_of(four, owner, label);
    return sum;
}
