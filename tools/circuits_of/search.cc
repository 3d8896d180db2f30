// Looks for a circuit with few gates for one selection function.
//
// It reads, in words: the seconds that it has, a seed, the tables of the six inputs and of the four
// outputs in hexadecimal, and the circuit to begin with: how many gates, each as "kind left right",
// and the places of the four outputs. With no gates it begins with circuits of its own. It writes the
// best circuit, in the same form.
//
// From a first circuit it walks: it replaces gates at random, and where the outputs do not depend on
// a gate, its replacement may differ from it. Now and then it builds a gate or an output anew. A
// circuit of the same size is taken too, so that the walk leaves dead ends.
#include <chrono>
#include <cinttypes>
#include <cstdio>

#include "building.h"

// How many steps without a better circuit end a walk; one in how many may add a gate, and how many
// more than the best one a circuit may have.
const int PATIENCE = 100000, ADDS = 15, SLACK = 3;

// One step in how many builds a gate or an output anew, and one of the others in how many puts two
// gates in the place of one.
const int REBUILDS = 20, TWOS = 1000;

void redirect(Circuit& circuit, int place, int by) {
    for (int at = INPUTS; at < circuit.places; at++) {
        Gate& gate = circuit.gates[at];
        if (gate.left == place) gate.left = (uint8_t)by;
        if (gate.right == place) gate.right = (uint8_t)by;
    }
    for (uint8_t& output : circuit.outputs)
        if (output == place) output = (uint8_t)by;
}

// A circuit with another place, another gate or two others for one of the gates.
bool step(const Circuit& circuit, Circuit& next) {
    int place = INPUTS + below(circuit.size());
    Target target;
    target_of(circuit, place, target);
    Circuit wider(circuit);
    for (int at = 0; at < target.count; at++)
        if (gives_it(target, circuit.tables[target.usable[at]])) {
            redirect(wider, place, target.usable[at]);
            order(wider, next);
            return true;
        }
    if (below(TWOS)) {
        Draw<Gate> one = one_gate(circuit, target, circuit.gates[place]);
        if (!one.offered) return false;
        redirect(wider, place, add(wider, one.drawn.kind, one.drawn.left, one.drawn.right));
        order(wider, next);
        return true;
    }
    Draw<Two> two = two_gates(circuit, target);
    if (!two.offered) return false;
    redirect(wider, place, add_two(wider, two.drawn));
    order(wider, next);
    return true;
}

// Marks the places that the outputs need, and gives how many gates are among them.
int mark_needed(const Circuit& circuit, bool* needed) {
    int count = 0;
    std::fill(needed, needed + circuit.places, false);
    for (int output : circuit.outputs) needed[output] = true;
    for (int at = circuit.places - 1; at >= INPUTS; at--)
        if (needed[at]) {
            count++;
            needed[circuit.gates[at].left] = needed[circuit.gates[at].right] = true;
        }
    return count;
}

// Adds those of a circuit's gates that are marked, and have no place there yet.
void add_marked(const Circuit& from, const bool* marked, Circuit& to, int* places) {
    for (int at = INPUTS; at < from.places; at++) {
        const Gate& gate = from.gates[at];
        if (marked[at] && places[at] < 0)
            places[at] = add(to, gate.kind, places[gate.left], places[gate.right]);
    }
}

// A circuit where one gate, or one output, is built anew over what does not depend on it, without
// the gates that it alone needs.
bool rebuild(const Circuit& circuit, Circuit& next) {
    int output = below(3) ? OUTPUTS : below(OUTPUTS);
    int place = output < OUTPUTS ? circuit.outputs[output] : INPUTS + below(circuit.size());
    Target target;
    target_of(circuit, place, target);
    bool needed[MOST], usable[MOST] = {};
    for (int i = 0; i < target.count; i++) usable[target.usable[i]] = true;
    Circuit cut(circuit);
    if (output < OUTPUTS) {
        cut.outputs[output] = 0;
        target.table = wanted[output], target.care = ~(Table)0;
        std::fill(usable, usable + MOST, true);
    } else {
        redirect(cut, place, 0);
    }
    int spare = circuit.size() - mark_needed(cut, needed), places[MOST];
    if (spare < 2) return false;
    for (int at = 0; at < circuit.places; at++) {
        places[at] = at < INPUTS ? at : -1;
        usable[at] = usable[at] && needed[at];
    }
    Circuit base;
    clear(base);
    add_marked(circuit, usable, base, places);
    if (below(2)) std::shuffle(turn, turn + INPUTS, randomness);
    int most = base.places + spare + (below(ADDS) == 0);
    int built = build(base, target.table, target.care, most);
    if (built < 0) return false;
    if (output == OUTPUTS) places[place] = built;
    add_marked(circuit, needed, base, places);
    for (int i = 0; i < OUTPUTS; i++)
        base.outputs[i] = (uint8_t)(i == output ? built : places[circuit.outputs[i]]);
    order(base, next);
    return true;
}

bool is_right(const Circuit& circuit) {
    for (int i = 0; i < OUTPUTS; i++)
        if (circuit.tables[circuit.outputs[i]] != wanted[i]) return false;
    return true;
}

double now() {
    using namespace std::chrono;
    return duration<double>(steady_clock::now().time_since_epoch()).count();
}

// Walks from a circuit until the time is over, or no better one was found for long.
Circuit walk(Circuit circuit, double end) {
    Circuit best(circuit), next;
    for (int idle = 0; idle < PATIENCE && now() < end; idle++) {
        if (!(below(REBUILDS) ? step(circuit, next) : rebuild(circuit, next))) continue;
        int most = circuit.size() + (below(ADDS) == 0);
        if (next.size() > most || next.size() > best.size() + SLACK) continue;
        circuit = next;
        if (circuit.size() < best.size()) idle = 0;
        if (circuit.size() <= best.size()) best = circuit;
    }
    return best;
}

bool read(Circuit& circuit) {
    clear(circuit);
    int count, kind, left, right;
    if (scanf("%d", &count) != 1 || count == 0) return false;
    for (int i = 0; i < count && scanf("%d %d %d", &kind, &left, &right) == 3; i++)
        add(circuit, kind, left, right);
    for (uint8_t& output : circuit.outputs)
        if (scanf("%d", &left) == 1) output = (uint8_t)left;
    return true;
}

void write(const Circuit& circuit) {
    printf("%d\n", circuit.size());
    for (int at = INPUTS; at < circuit.places; at++) {
        const Gate& gate = circuit.gates[at];
        printf("%d %d %d\n", gate.kind, gate.left, gate.right);
    }
    for (int output : circuit.outputs) printf("%d ", output);
    printf("\n");
}

int main() {
    double seconds;
    uint64_t seed;
    if (scanf("%lf %" SCNu64, &seconds, &seed) != 2) return 1;
    for (Table& table : inputs)
        if (scanf("%" SCNx64, &table) != 1) return 1;
    for (Table& table : wanted)
        if (scanf("%" SCNx64, &table) != 1) return 1;
    randomness.seed(seed);
    double start = now(), end = start + seconds;
    Circuit best;
    bool given = read(best);
    for (bool again = given; now() < end || !given; again = below(4) == 0) {
        Circuit circuit = walk(again ? best : first_circuit(), end);
        fprintf(stderr, "%.0f s: %d\n", now() - start, circuit.size());
        if (!given || circuit.size() <= best.size()) best = circuit;
        given = true;
    }
    if (!is_right(best)) return 1;
    write(best);
    return 0;
}
