// A client of the library in C++: judges tables of a plan, each in a thread of its own, and says in words what is wrong with them.
//
//   judge PLAN TABLE..
//
// Then it makes the plan's own table, spoils it and lends too little, and looks whether each call answers as the header says. What it lends
// there ends at a page that nothing may touch.
//
// Status 0: everything was as the header says, whatever was refused. 1: it was not. 2: wrong use, or a file that cannot be read.
#include "olbiothar.h"

#include <sys/mman.h>
#include <unistd.h>

#include <algorithm>
#include <array>
#include <cstdint>
#include <cstring>
#include <fstream>
#include <future>
#include <iostream>
#include <iterator>
#include <new>
#include <stdexcept>
#include <string>
#include <vector>

namespace {

using Bytes = std::vector<std::uint8_t>;

struct Surprise : std::runtime_error {
    using std::runtime_error::runtime_error;
};

void expect(bool it_is, const char *what) {
    if (!it_is) throw Surprise(what);
}

#define EXPECT(what) expect(what, #what)

struct NoFile : std::runtime_error {
    using std::runtime_error::runtime_error;
};

Bytes read(const std::string &name) {
    std::ifstream file(name, std::ios::binary);
    if (!file) throw NoFile(name + ": cannot be opened");
    Bytes bytes{std::istreambuf_iterator<char>(file), std::istreambuf_iterator<char>()};
    if (file.bad()) throw NoFile(name + ": cannot be read");
    return bytes;
}

// Memory to lend, with a page behind it that nothing may touch.
class Lent {
public:
    explicit Lent(std::size_t length, std::uint8_t filled = 0) : length_(length) {
        const auto page = static_cast<std::size_t>(sysconf(_SC_PAGESIZE));
        const std::size_t room = (length + page - 1) / page * page;
        mapped_ = room + page;
        start_ = mmap(nullptr, mapped_, PROT_READ | PROT_WRITE, MAP_PRIVATE | MAP_ANONYMOUS, -1, 0);
        if (start_ == MAP_FAILED) throw std::bad_alloc();
        data_ = static_cast<std::uint8_t *>(start_) + (room - length);
        if (mprotect(data_ + length, page, PROT_NONE) != 0) {
            munmap(start_, mapped_);
            throw std::bad_alloc();
        }
        std::fill(begin(), end(), filled);
    }
    explicit Lent(const Bytes &copied) : Lent(copied.size()) { std::copy(copied.begin(), copied.end(), data_); }
    Lent(const Lent &) = delete;
    Lent &operator=(const Lent &) = delete;
    ~Lent() { munmap(start_, mapped_); }

    std::uint8_t *data() const { return data_; }
    std::size_t size() const { return length_; }
    std::uint8_t *begin() const { return data_; }
    std::uint8_t *end() const { return data_ + length_; }
    bool is_all(std::uint8_t byte) const {
        return std::all_of(begin(), end(), [byte](std::uint8_t other) { return other == byte; });
    }

private:
    std::size_t length_, mapped_;
    void *start_;
    std::uint8_t *data_;
};

bool operator==(const olbiothar_answer &one, const olbiothar_answer &other) {
    return one.number == other.number && one.place == other.place;
}

using Words = std::uint64_t(std::uint32_t, std::uint8_t *, std::size_t);

std::string words(Words of, std::uint32_t number) {
    std::array<std::uint8_t, OLBIOTHAR_LONGEST_WORDS> text;
    const std::uint64_t length = of(number, text.data(), text.size());
    EXPECT(length < text.size() && text[length] == 0);
    return {text.begin(), text.begin() + static_cast<std::ptrdiff_t>(length)};
}

class Judge {
public:
    explicit Judge(const Bytes &plan) : plan_(plan) {}

    olbiothar_answer judged(const Bytes &table) const {
        std::vector<olbiothar_frame> rows(OLBIOTHAR_FRAMES);
        const Lent lent(table);
        return olbiothar_check(plan_.data(), plan_.size(), lent.data(), lent.size(), rows.data(), rows.size());
    }

    olbiothar_answer makes(const Lent &table, std::size_t row_count = OLBIOTHAR_FRAMES, std::uint8_t edition = OLBIOTHAR_BASIC) const {
        std::vector<olbiothar_frame> rows(row_count);
        return olbiothar_make(plan_.data(), plan_.size(), edition, rows.data(), rows.size(), table.data(), table.size());
    }

    std::string sheet(const Bytes &table) const {
        const Lent text(OLBIOTHAR_LONGEST_SHEET);
        const auto sheet = olbiothar_sheet(plan_.data(), plan_.size(), table.data(), table.size(), text.data(), text.size());
        EXPECT(sheet.checked == judged(table) && sheet.length <= text.size());
        return {text.begin(), text.begin() + sheet.length};
    }

    const Lent &plan() const { return plan_; }

private:
    Lent plan_;
};

std::string verdict(const Judge &judge, const Bytes &table) {
    const olbiothar_answer answer = judge.judged(table);
    if (answer.number == OLBIOTHAR_DONE) return "passed";
    const std::string why = words(olbiothar_words, answer.number);
    EXPECT(!why.empty());
    return "refused " + std::to_string(answer.number) + " at " + std::to_string(answer.place) + ": " + why;
}

// The tables are judged at the same time: threads may share the library, and here the plan.
void judge_files(const Judge &judge, const std::vector<std::string> &names) {
    std::vector<std::future<std::string>> verdicts;
    for (const std::string &name : names)
        verdicts.push_back(std::async(std::launch::async, [&judge, &name] { return verdict(judge, read(name)); }));
    for (std::size_t k = 0; k < names.size(); k++) {
        const std::string said = verdicts[k].get();
        std::cout << names[k] << ": " << said << '\n';
    }
}

Bytes made(const Judge &judge) {
    const Lent longest(OLBIOTHAR_LONGEST_TABLE, 0xee);
    const olbiothar_answer answer = judge.makes(longest);
    EXPECT(answer.number == OLBIOTHAR_DONE && answer.place < longest.size());
    EXPECT(std::all_of(longest.begin() + answer.place, longest.end(), [](std::uint8_t byte) { return byte == 0xee; }));
    return {longest.begin(), longest.begin() + answer.place};
}

// Too little memory is refused with what is needed, and left as it was; exactly as much is enough.
void lend_too_little(const Judge &judge, const Bytes &table) {
    for (std::size_t length : {std::size_t{0}, std::size_t{1}, table.size() - 1}) {
        const Lent less(length, 0x5a);
        EXPECT((judge.makes(less) == olbiothar_answer{OLBIOTHAR_BUFFER_TOO_SHORT, table.size()}) && less.is_all(0x5a));
    }
    const Lent enough(table.size());
    EXPECT((judge.makes(enough) == olbiothar_answer{OLBIOTHAR_DONE, table.size()}));
    EXPECT(std::equal(table.begin(), table.end(), enough.begin()));
    EXPECT((judge.makes(enough, OLBIOTHAR_FRAMES - 1) == olbiothar_answer{OLBIOTHAR_TOO_FEW_ROWS, OLBIOTHAR_FRAMES}));
    const std::uint8_t none = OLBIOTHAR_CONSUMERS + 1;
    EXPECT((judge.makes(enough, OLBIOTHAR_FRAMES, none) == olbiothar_answer{OLBIOTHAR_NO_EDITION, none}));
    const Lent short_sheet(OLBIOTHAR_LONGEST_SHEET - 1, 0x5a);
    const auto sheet = olbiothar_sheet(judge.plan().data(), judge.plan().size(), table.data(), table.size(), short_sheet.data(),
                                       short_sheet.size());
    EXPECT((sheet.checked == olbiothar_answer{OLBIOTHAR_BUFFER_TOO_SHORT, OLBIOTHAR_LONGEST_SHEET}));
    EXPECT(sheet.length == 0 && short_sheet.is_all(0x5a));
    const Lent few(OLBIOTHAR_LONGEST_WORDS - 1, 0x5a);
    EXPECT(olbiothar_words(OLBIOTHAR_NO_ROOM, few.data(), few.size()) == 0 && few.is_all(0x5a));
}

// A NULL with a length of 0 is not followed.
void lend_nothing(const Judge &judge) {
    const Lent &plan = judge.plan();
    std::vector<olbiothar_frame> rows(OLBIOTHAR_FRAMES);
    const olbiothar_answer no_records{OLBIOTHAR_BAD_RECORDS, 0}, no_rows{OLBIOTHAR_TOO_FEW_ROWS, OLBIOTHAR_FRAMES};
    EXPECT(olbiothar_make(nullptr, 0, OLBIOTHAR_BASIC, rows.data(), rows.size(), nullptr, 0) == no_records);
    EXPECT(olbiothar_make(plan.data(), plan.size(), OLBIOTHAR_CONSUMERS, nullptr, 0, nullptr, 0) == no_rows);
    EXPECT(olbiothar_check(nullptr, 0, nullptr, 0, rows.data(), rows.size()) == no_records);
    EXPECT((olbiothar_check(plan.data(), plan.size(), nullptr, 0, rows.data(), rows.size()) ==
            olbiothar_answer{OLBIOTHAR_BAD_TABLE_RECORDS, 0}));
    EXPECT((olbiothar_sheet_table(nullptr, 0, nullptr, 0) == olbiothar_answer{OLBIOTHAR_UNREADABLE, 1}));
    EXPECT(olbiothar_plan_text(nullptr, 0, nullptr, 0) == no_records);
    const olbiothar_plan_answer read = olbiothar_text_plan(nullptr, 0, nullptr, 0);
    EXPECT((read.answer == olbiothar_answer{OLBIOTHAR_UNREADABLE, 1}) && read.reason == OLBIOTHAR_BUS_EXPECTED);
    EXPECT(olbiothar_words(OLBIOTHAR_NO_ROOM, nullptr, 0) == 0);
}

// The last data row of the table, begun at 0: no task can have finished by then. Which record it is stands in the table's header.
void begin_too_early(const Judge &judge, Bytes table) {
    const std::size_t last = std::size_t{table[5]} + table[6] + 256 * std::size_t{table[7]};
    std::uint32_t times[2];
    std::uint8_t *const at = table.data() + table.size() - 1 - sizeof times;
    std::memcpy(times, at, sizeof times);
    times[1] -= times[0], times[0] = 0;
    std::memcpy(at, times, sizeof times);
    EXPECT((judge.judged(table) == olbiothar_answer{OLBIOTHAR_BEFORE_RELEASE, last}));
    const std::string top = "refused 25 at " + std::to_string(last) + "\ncycle ";
    EXPECT(judge.sheet(table).compare(0, top.size(), top) == 0);
    table.pop_back();
    EXPECT((judge.judged(table) == olbiothar_answer{OLBIOTHAR_BAD_TABLE_RECORDS, table.size()}));
}

// The table for the plan's consumers, if it has one, says so in front; it passes, its sheet says it too, and as a basic table it passes only
// where it has the same rows.
void make_for_consumers(const Judge &judge, const Bytes &basic) {
    const Lent longest(OLBIOTHAR_LONGEST_TABLE);
    const olbiothar_answer answer = judge.makes(longest, OLBIOTHAR_FRAMES, OLBIOTHAR_CONSUMERS);
    if (answer.number != OLBIOTHAR_DONE) {
        EXPECT(answer.number >= OLBIOTHAR_NO_BUS_TASK && answer.number <= OLBIOTHAR_NO_ROOM);
        return;
    }
    Bytes table(longest.begin(), longest.begin() + answer.place);
    EXPECT(table[0] == 20 && basic[0] == 16 && verdict(judge, table) == "passed");
    const std::string sheet = judge.sheet(table), said = " consumers  # ticks of one microsecond";
    EXPECT(sheet.find(said) < sheet.find('\n') && judge.sheet(basic).find(said) == std::string::npos);
    begin_too_early(judge, table);
    table[0] = 16;
    EXPECT(table == basic || verdict(judge, table) != "passed" || table.size() == basic.size());
}

// Lines of a plan that cannot be read, and why.
void misspell() {
    const struct {
        std::string text, why;
        std::uint64_t line;
    } cases[] = {
        {"", "bus expected", 1},
        {"# nothing\n\nnodes 2\n", "bus expected", 3},
        {"bus", "kbit/s expected", 1},
        {"bus kbit/s fast", "number expected", 1},
        {"bus kbit/s 4294967296", "number too large", 1},
    };
    for (const auto &each : cases) {
        const Bytes bytes(each.text.begin(), each.text.end());
        const Lent plan(100, 0x5a);
        const olbiothar_plan_answer read = olbiothar_text_plan(bytes.data(), bytes.size(), plan.data(), plan.size());
        EXPECT((read.answer == olbiothar_answer{OLBIOTHAR_UNREADABLE, each.line}) && plan.is_all(0x5a));
        EXPECT(words(olbiothar_reason_words, read.reason) == each.why);
    }
}

int run(const std::vector<std::string> &names) {
    const Judge judge(read(names.front()));
    judge_files(judge, {names.begin() + 1, names.end()});
    const Bytes table = made(judge);
    EXPECT(verdict(judge, table) == "passed");
    lend_too_little(judge, table);
    lend_nothing(judge);
    begin_too_early(judge, table);
    make_for_consumers(judge, table);
    misspell();
    std::cout << names.front() << ": its own table passed, and what was spoiled was refused\n";
    return 0;
}

} // namespace

int main(int count, char **words) {
    if (count < 2) {
        std::cerr << "judge: usage: judge PLAN TABLE..\n";
        return 2;
    }
    try {
        return run({words + 1, words + count});
    } catch (const NoFile &failure) {
        std::cerr << "judge: " << failure.what() << '\n';
        return 2;
    } catch (const std::exception &failure) {
        std::cerr << "judge: not so: " << failure.what() << '\n';
        return 1;
    }
}
