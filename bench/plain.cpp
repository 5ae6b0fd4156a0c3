// The benchmark's searches written plainly, for crates/bench to be held against: the same plants, the same rule, the same answers.
#include <array>
#include <cstdint>
#include <iostream>
#include <limits>
#include <optional>
#include <queue>
#include <sstream>
#include <string>
#include <vector>

constexpr uint32_t JUNCTIONS = 256;
constexpr uint32_t LEGS = 512;
constexpr uint16_t NO_LEG = 65535;

struct Leg {
    uint32_t tail, head, metres, drive, clearance, turn;
};

class Dice {
    uint32_t state = 20260;

public:
    uint32_t roll(uint32_t sides) {
        state = state * 1664525 + 1013904223;
        return (state >> 12) % sides;
    }
};

// ---- plants

struct Plant {
    std::vector<Leg> legs;
    // the legs that leave junction j, in number order: leaving[first[j]] up to leaving[first[j + 1]]
    std::array<uint16_t, JUNCTIONS + 1> first{};
    std::vector<uint16_t> leaving;
};

uint32_t step(uint32_t place, bool backward) { return (place + (backward ? 15 : 1)) % 16; }

void set_ends(Leg& leg, uint32_t number, const std::string& shape, Dice& dice) {
    if (shape == "grid") {
        leg.tail = number % JUNCTIONS;
        uint32_t row = leg.tail / 16, column = leg.tail % 16;
        leg.head = number < JUNCTIONS ? row * 16 + step(column, row % 2 == 1) : step(row, column % 2 == 1) * 16 + column;
    } else {
        leg.tail = number < JUNCTIONS ? number : dice.roll(JUNCTIONS);
        leg.head = dice.roll(JUNCTIONS);
    }
}

Plant draw(const std::string& shape) {
    Plant plant;
    Dice dice;
    for (uint32_t number = 0; number < LEGS; number++) {
        Leg leg;
        set_ends(leg, number, shape, dice);
        leg.metres = 1 + dice.roll(1000);
        leg.drive = dice.roll(8);
        leg.clearance = 1 + dice.roll(500);
        leg.turn = dice.roll(2);
        plant.legs.push_back(leg);
    }
    for (uint32_t junction = 0; junction < JUNCTIONS; junction++) {
        for (uint32_t number = 0; number < LEGS; number++)
            if (plant.legs[number].tail == junction) plant.leaving.push_back(number);
        plant.first[junction + 1] = plant.leaving.size();
    }
    return plant;
}

// ---- measures

constexpr uint32_t STOP = std::numeric_limits<uint32_t>::max();
constexpr uint32_t PACES[8] = {20, 16, 14, 12, 10, 8, 6, 5};

uint32_t stopped(uint64_t n) { return n < STOP ? n : STOP; }

uint32_t leg_time(const Leg& leg) { return stopped(uint64_t(leg.metres) * PACES[leg.drive]); }

struct Time {
    uint32_t tenths;
    static Time unit() { return {0}; }
    static Time weight(const Leg& leg) { return {leg_time(leg)}; }
    Time join(Time other) const { return {stopped(uint64_t(tenths) + other.tenths)}; }
    bool is_below(Time other) const { return tenths < other.tenths; }
    uint64_t figure() const { return tenths; }
};

struct Clearance {
    uint16_t centimetres;
    static Clearance unit() { return {65535}; }
    static Clearance weight(const Leg& leg) { return {uint16_t(std::min<uint32_t>(leg.clearance, 65535))}; }
    Clearance join(Clearance other) const { return {std::min(centimetres, other.centimetres)}; }
    bool is_below(Clearance other) const { return centimetres > other.centimetres; }
    uint64_t figure() const { return centimetres; }
};

struct TimeTurns {
    uint32_t time, turns;
    static TimeTurns unit() { return {0, 0}; }
    static TimeTurns of(uint32_t time, uint32_t turns) { return time < STOP ? TimeTurns{time, turns} : TimeTurns{STOP, STOP}; }
    static TimeTurns weight(const Leg& leg) { return of(leg_time(leg), leg.turn); }
    TimeTurns join(TimeTurns other) const { return of(stopped(uint64_t(time) + other.time), stopped(uint64_t(turns) + other.turns)); }
    bool is_below(TimeTurns other) const { return time < other.time || (time == other.time && turns < other.turns); }
    uint64_t figure() const { return uint64_t(time) * 1000 + turns; }
};

// ---- queues: each gives out the lowest total first, and of equal ones the lowest number

template <class M>
struct Slot {
    M total;
    uint16_t number;
    bool comes_before(const Slot& other) const {
        if (total.is_below(other.total)) return true;
        if (other.total.is_below(total)) return false;
        return number < other.number;
    }
};

// A binary heap. A junction whose total is lowered waits twice, and is passed over the second time.
template <class M>
class Heap {
    struct Later {
        bool operator()(const Slot<M>& a, const Slot<M>& b) const { return b.comes_before(a); }
    };
    std::priority_queue<Slot<M>, std::vector<Slot<M>>, Later> slots;

public:
    void clear() { slots = {}; }
    void put(M total, uint16_t number, bool) { slots.push({total, number}); }
    std::optional<Slot<M>> take() {
        if (slots.empty()) return std::nullopt;
        Slot<M> lowest = slots.top();
        slots.pop();
        return lowest;
    }
};

// An array in no order, as the Rattle search has it.
template <class M>
class Array {
    std::array<Slot<M>, JUNCTIONS> slots;
    uint32_t used = 0;

public:
    void clear() { used = 0; }
    void put(M total, uint16_t number, bool waits) {
        uint32_t at = used;
        if (waits)
            for (at = 0; slots[at].number != number; at++) {}
        else
            used++;
        slots[at] = {total, number};
    }
    std::optional<Slot<M>> take() {
        if (used == 0) return std::nullopt;
        uint32_t best = 0;
        for (uint32_t i = 1; i < used; i++)
            if (slots[i].comes_before(slots[best])) best = i;
        Slot<M> lowest = slots[best];
        slots[best] = slots[--used];
        return lowest;
    }
};

// ---- the search

template <class M, class Queue>
struct Search {
    const Plant& plant;
    std::array<M, JUNCTIONS> totals;
    std::array<uint16_t, JUNCTIONS> came;
    std::array<bool, JUNCTIONS> done;
    std::array<uint16_t, JUNCTIONS> settled;
    std::array<uint16_t, JUNCTIONS> way;
    uint32_t count = 0, legs = 0;
    Queue queue;

    explicit Search(const Plant& plant) : plant(plant) {}

    void relax(uint32_t junction, M at, uint32_t start) {
        for (uint32_t i = plant.first[junction]; i < plant.first[junction + 1]; i++) {
            uint16_t number = plant.leaving[i];
            const Leg& leg = plant.legs[number];
            if (done[leg.head]) continue;
            M total = at.join(M::weight(leg));
            bool waits = leg.head == start || came[leg.head] != NO_LEG;
            if (waits && !total.is_below(totals[leg.head])) continue;
            totals[leg.head] = total;
            came[leg.head] = number;
            queue.put(total, leg.head, waits);
        }
    }

    // Settles junctions until the goal is settled; false where it cannot be reached.
    bool run(uint32_t start, uint32_t goal) {
        totals.fill(M::unit());
        came.fill(NO_LEG);
        done.fill(false);
        count = 0;
        queue.clear();
        queue.put(M::unit(), start, false);
        while (auto lowest = queue.take()) {
            uint32_t junction = lowest->number;
            if (done[junction]) continue;
            done[junction] = true;
            settled[count++] = junction;
            if (junction == goal) return true;
            relax(junction, lowest->total, start);
        }
        return false;
    }

    void trace(uint32_t goal) {
        legs = 0;
        for (uint32_t at = goal; came[at] != NO_LEG; at = plant.legs[came[at]].tail) legs++;
        uint32_t place = legs;
        for (uint32_t at = goal; came[at] != NO_LEG; at = plant.legs[came[at]].tail) way[--place] = came[at];
    }
};

// ---- what the searches come to

struct Tally {
    uint64_t found = 0, settled = 0, sum = 0;
    void mix(uint64_t number) { sum = sum * 1099511628211u + number; }
};

template <class M, class Queue>
Tally run(const Plant& plant, uint32_t rounds) {
    Search<M, Queue> search(plant);
    Tally tally;
    for (uint32_t round = 0; round < rounds; round++) {
        uint32_t start = round % JUNCTIONS;
        for (uint32_t goal = 0; goal < JUNCTIONS; goal++) {
            if (search.run(start, goal)) {
                search.trace(goal);
                tally.found++;
                tally.mix(search.totals[goal].figure());
                for (uint32_t i = 0; i < search.legs; i++) tally.mix(search.way[i]);
            }
            tally.settled += search.count;
            tally.mix(search.count);
        }
    }
    return tally;
}

template <template <class> class Queue>
Tally run_by(const Plant& plant, const std::string& measure, uint32_t rounds) {
    if (measure == "t") return run<Time, Queue<Time>>(plant, rounds);
    if (measure == "h") return run<Clearance, Queue<Clearance>>(plant, rounds);
    return run<TimeTurns, Queue<TimeTurns>>(plant, rounds);
}

// Each line of the input is a job, as `grid t 8`. With the argument `array` the queue is an array, else a heap.
int main(int argc, char** argv) {
    bool array = argc > 1 && std::string(argv[1]) == "array";
    std::string line, shape, measure;
    uint32_t rounds;
    while (std::getline(std::cin, line)) {
        std::istringstream(line) >> shape >> measure >> rounds;
        Plant plant = draw(shape);
        Tally t = array ? run_by<Array>(plant, measure, rounds) : run_by<Heap>(plant, measure, rounds);
        std::cout << line << ": found=" << t.found << " settled=" << t.settled << " sum=" << t.sum << "\n";
    }
}
