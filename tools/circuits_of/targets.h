// Which gates give a function where it matters.
#include "circuit.h"

// One of those that were offered, each as likely as another.
template <class Of> struct Draw {
    Of drawn;
    int offered = 0;
    void offer(const Of& one) {
        if (below(++offered) == 0) drawn = one;
    }
};

// A function that is looked for: where `care` says, over the places that may be used.
struct Target {
    Table table, care;
    int count;
    uint8_t usable[MOST];
};

// Two gates. The place INNER stands for the first one.
const int INNER = MOST;
struct Two {
    Gate first, second;
};

bool gives_it(const Target& target, Table table) { return ((table ^ target.table) & target.care) == 0; }

// What a target's places are to it, where its `care` says.
struct Parts {
    static const int SLOTS = 512;
    uint8_t over[MOST], under[MOST], apart[MOST];  // those that contain it, are in it, meet it not
    int overs = 0, unders = 0, aparts = 0;
    Table keys[SLOTS];
    uint8_t found[SLOTS] = {};  // one more than the place with this table; 0 where there is none

    static int slot(Table table) { return (int)(table * 0x9E3779B97F4A7C15u >> 55); }
    Parts(const Circuit& circuit, const Target& target) {
        Table wanted = target.table & target.care;
        for (int at = 0; at < target.count; at++) {
            uint8_t place = target.usable[at];
            Table table = circuit.tables[place] & target.care;
            if ((wanted & ~table) == 0) over[overs++] = place;
            if ((table & ~wanted) == 0) under[unders++] = place;
            if ((table & wanted) == 0) apart[aparts++] = place;
            int i = slot(table);
            while (found[i] && keys[i] != table) i = (i + 1) % SLOTS;
            if (!found[i] || below(2)) keys[i] = table, found[i] = (uint8_t)(place + 1);
        }
    }
    // A place with this table, or -1.
    int place(Table table) const {
        int i = slot(table);
        while (found[i] && keys[i] != table) i = (i + 1) % SLOTS;
        return found[i] - 1;
    }
};

Draw<Gate> one_gate(const Circuit& circuit, const Target& target, const Gate& but) {
    Draw<Gate> draw;
    const Table* tables = circuit.tables;
    auto offer = [&](int kind, int i, int j) {
        if (kind == but.kind && i == but.left && (kind == Not || j == but.right)) return;
        if (kind == but.kind && kind < AndNot && j == but.left && i == but.right) return;
        draw.offer({(uint8_t)kind, (uint8_t)i, (uint8_t)j});
    };
    Parts parts(circuit, target);
    int opposite = parts.place(~target.table & target.care);
    if (opposite >= 0) offer(Not, opposite, opposite);
    for (int at = 0; at < target.count; at++) {
        int i = target.usable[at], j = parts.place((tables[i] ^ target.table) & target.care);
        if (j >= 0) offer(Xor, i, j);
    }
    for (int at = 0; at < parts.overs; at++) {
        Table left = tables[parts.over[at]];
        for (int other = 0; other < at; other++)
            if (gives_it(target, left & tables[parts.over[other]]))
                offer(And, parts.over[at], parts.over[other]);
        for (int other = 0; other < parts.aparts; other++)
            if (gives_it(target, left & ~tables[parts.apart[other]]))
                offer(AndNot, parts.over[at], parts.apart[other]);
    }
    for (int at = 0; at < parts.unders; at++)
        for (int other = 0; other < at; other++)
            if (gives_it(target, tables[parts.under[at]] | tables[parts.under[other]]))
                offer(Or, parts.under[at], parts.under[other]);
    return draw;
}

// Offers what the first gate gives with a second one.
void with_inner(const Circuit& circuit, const Target& target, const Parts& parts, Gate first,
                Draw<Two>& draw) {
    const Table* tables = circuit.tables;
    Table care = target.care, table = target.table & care;
    Table inner = gives(first.kind, tables[first.left], tables[first.right]) & care;
    auto offer = [&](int kind, int left, int right) {
        draw.offer({first, {(uint8_t)kind, (uint8_t)left, (uint8_t)right}});
    };
    int other = parts.place(inner ^ table);
    if (other >= 0) offer(Xor, INNER, other);
    if ((inner ^ care) == table) offer(Not, INNER, INNER);
    if ((table & ~inner) == 0) {
        for (int at = 0; at < parts.overs; at++)
            if (gives_it(target, inner & tables[parts.over[at]])) offer(And, INNER, parts.over[at]);
        for (int at = 0; at < parts.aparts; at++)
            if (gives_it(target, inner & ~tables[parts.apart[at]]))
                offer(AndNot, INNER, parts.apart[at]);
    }
    if ((inner & ~table) == 0)
        for (int at = 0; at < parts.unders; at++)
            if (gives_it(target, inner | tables[parts.under[at]]))
                offer(Or, INNER, parts.under[at]);
    if ((inner & table) == 0)
        for (int at = 0; at < parts.overs; at++)
            if (gives_it(target, tables[parts.over[at]] & ~inner))
                offer(AndNot, parts.over[at], INNER);
}

Draw<Two> two_gates(const Circuit& circuit, const Target& target) {
    Draw<Two> draw;
    Parts parts(circuit, target);
    for (int at = 0; at < target.count; at++)
        for (int other = 0; other < at; other++) {
            uint8_t i = target.usable[at], j = target.usable[other];
            for (uint8_t kind = And; kind <= AndNot; kind++)
                with_inner(circuit, target, parts, {kind, i, j}, draw);
            with_inner(circuit, target, parts, {AndNot, j, i}, draw);
        }
    return draw;
}

int add_two(Circuit& circuit, const Two& two) {
    int inner = add(circuit, two.first.kind, two.first.left, two.first.right);
    auto at = [&](int place) { return place == INNER ? inner : place; };
    return add(circuit, two.second.kind, at(two.second.left), at(two.second.right));
}

// The target of a gate that is to be replaced: it matters where an output depends on it, and what
// does not depend on it may be used.
void target_of(const Circuit& circuit, int place, Target& target) {
    Table turned[MOST];
    bool above[MOST];
    target.count = 0;
    for (int at = 0; at < circuit.places; at++) {
        const Gate& gate = circuit.gates[at];
        above[at] = at == place || (at > place && (above[gate.left] || above[gate.right]));
        turned[at] = circuit.tables[at];
        if (at == place) turned[at] = ~turned[at];
        else if (above[at]) turned[at] = gives(gate.kind, turned[gate.left], turned[gate.right]);
        if (!above[at]) target.usable[target.count++] = (uint8_t)at;
    }
    target.table = circuit.tables[place], target.care = 0;
    for (int output : circuit.outputs) target.care |= turned[output] ^ circuit.tables[output];
}
