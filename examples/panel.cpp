/*
 * All that a panel does, through the library, in C++17. An interview is filmed, the witness's face is blurred, and the piece is graded and
 * cut; there is a rented store and a machine room to do it in. This is the workflow of examples/interview.bin, built here by names.
 *
 * The program takes no input and always prints what examples/panel.expected holds.
 */
#include <algorithm>
#include <array>
#include <cstddef>
#include <cstdint>
#include <exception>
#include <functional>
#include <future>
#include <iostream>
#include <optional>
#include <stdexcept>
#include <string>
#include <vector>

#include "panel.h"

namespace {

using Bytes = std::vector<std::uint8_t>;
using Names = std::vector<std::string>;
using Placement = std::array<std::uint8_t, PANEL_BLOCKS>;
using Amounts = std::array<std::uint64_t, PANEL_AMOUNTS>; // cost, storage, transfer, cpu

struct Row {
    Placement placement{};
    Amounts amounts{};
};

// The witness's open face needs the higher level, and the rented store has the lower one.
constexpr unsigned rented_level = 0;
constexpr unsigned own_level = 1;

constexpr std::size_t transfer_bytes = 4; // edge, datum, cloud that it leaves, cloud that it enters
constexpr std::size_t chosen_row = 2;
constexpr std::size_t drawn_rows = 2;
constexpr std::size_t threads = 4;

// The number that the library knows a name by: its place in the order of declaration.
std::size_t number_of(const Names &names, const std::string &name)
{
    const auto found = std::find(names.begin(), names.end(), name);
    if (found == names.end())
        throw std::invalid_argument("nothing is called " + name);
    return static_cast<std::size_t>(found - names.begin());
}

// Builds the bytes of a description, and keeps the names beside the numbers. Whether it is accepted is for the library to say.
class Builder {
public:
    struct Rates {
        unsigned storage, in, out, cpu;
    };

    void cloud(const std::string &name, unsigned label, const Rates &rates)
    {
        put(1, cloud_command).put(1, label).put(2, rates.storage).put(2, rates.in).put(2, rates.out).put(2, rates.cpu);
        clouds_.push_back(name);
    }

    void datum(const std::string &name, unsigned label, unsigned tenths_of_gigabytes, unsigned months)
    {
        put(1, datum_command).put(1, label).put(2, tenths_of_gigabytes).put(2, months);
        blocks_.push_back(name);
    }

    void service(const std::string &name, unsigned location, unsigned clearance, unsigned cpu_units)
    {
        put(1, service_command).put(1, location).put(1, clearance).put(4, cpu_units);
        blocks_.push_back(name);
    }

    void reads(const std::string &service, const std::string &datum) { relate(reads_command, service, datum); }
    void writes(const std::string &service, const std::string &datum) { relate(writes_command, service, datum); }
    void pair(const std::string &datum, const std::string &other) { relate(pair_command, datum, other); }
    void pin(const std::string &block, const std::string &cloud)
    {
        put(1, pin_command).put(1, number_of(blocks_, block)).put(1, number_of(clouds_, cloud));
    }

    // The description so far, with the command that ends it.
    Bytes bytes() const
    {
        Bytes ended = bytes_;
        ended.push_back(end_command);
        return ended;
    }

    const Names &clouds() const { return clouds_; }
    const Names &blocks() const { return blocks_; }

private:
    enum Command : unsigned {
        end_command,
        cloud_command,
        datum_command,
        service_command,
        reads_command,
        writes_command,
        pin_command,
        pair_command
    };

    // A number of so many bytes, the most significant first.
    Builder &put(unsigned width, std::uint64_t value)
    {
        if (value >> (8 * width) != 0)
            throw std::out_of_range("a number does not fit its bytes");
        while (width-- > 0)
            bytes_.push_back(static_cast<std::uint8_t>(value >> (8 * width) & 255));
        return *this;
    }

    void relate(Command command, const std::string &first, const std::string &second)
    {
        put(1, command).put(1, number_of(blocks_, first)).put(1, number_of(blocks_, second));
    }

    Bytes bytes_;
    Names clouds_, blocks_;
};

// A refusal as the programs print it, and what it says.
std::string in_words(std::uint64_t status)
{
    const unsigned number = PANEL_NUMBER(status);
    return "refused " + std::to_string(number) + " " + std::to_string(PANEL_PLACE(status)) + ": " + panel_message(number);
}

// For calls of which no refusal is expected. It throws after the call has returned: nothing may be thrown through the library.
void require_answer(std::uint64_t status)
{
    if (status != 0)
        throw std::runtime_error(in_words(status));
}

// All rows, for a table. The first call has no room: it asks how much is needed. That is a walk more over the candidates, and saves memory;
// with PANEL_LIST and PANEL_SCRATCH words, which are enough for any description, one call would do.
std::vector<Row> list_of(const Bytes &description)
{
    std::vector<std::uint64_t> words, scratch;
    std::array<std::uint64_t, 2> extent{};
    const auto list = [&] {
        return panel_list(description.data(), description.size(), words.data(), words.size(),
                          scratch.data(), scratch.size(), extent.data());
    };
    std::uint64_t status = list();
    if (PANEL_NUMBER(status) == PANEL_SHORT_BUFFER) {
        words.resize(PANEL_PLACE(status));
        scratch.resize(words.size() / PANEL_ROW * 2);
        status = list();
    }
    require_answer(status);
    std::vector<Row> rows(extent[0]);
    for (std::size_t at = 0; at < rows.size(); at++)
        panel_unpack_row(&words[PANEL_ROW * at], extent[1], rows[at].placement.data(), rows[at].amounts.data());
    return rows;
}

// The same rows one at a time. Each costs a walk, so this is for a few of them. The description must outlive it.
class Draws {
public:
    explicit Draws(const Bytes &description) : description_(description) {}

    std::optional<Row> next()
    {
        std::array<std::uint64_t, 5> answer{};
        Row row;
        require_answer(panel_draw(description_.data(), description_.size(), start_, last_.amounts[0], last_.placement.data(),
                                  answer.data(), row.placement.data()));
        if (answer[0] == 0)
            return std::nullopt;
        std::copy(answer.begin() + 1, answer.end(), row.amounts.begin());
        start_ = false;
        last_ = row;
        return row;
    }

private:
    const Bytes &description_;
    bool start_ = true;
    Row last_;
};

std::string digits_of(const Placement &placement, std::size_t blocks)
{
    std::string digits;
    for (std::size_t block = 0; block < blocks; block++)
        digits += std::to_string(placement[block]);
    return digits;
}

void print_amounts(const Amounts &amounts)
{
    const auto [cost, storage, transfer, cpu] = amounts;
    std::cout << cost << " = " << storage << " storage + " << transfer << " transfer + " << cpu << " cpu\n";
}

void print_row(const Row &row, std::size_t blocks)
{
    std::cout << "  " << digits_of(row.placement, blocks) << "  ";
    print_amounts(row.amounts);
}

Builder interview()
{
    const Builder::Rates rates{10, 10, 10, 10};
    Builder film;
    film.cloud("rented store", rented_level, rates);
    film.cloud("machine room", own_level, rates);
    film.datum("recording", own_level, 100, 12);
    film.service("blurring", rented_level, own_level, 100);
    film.datum("blurred recording", rented_level, 50, 0);
    film.service("grading", rented_level, rented_level, 50);
    film.datum("finished piece", rented_level, 10, 12);
    film.reads("blurring", "recording");
    film.writes("blurring", "blurred recording");
    film.reads("grading", "blurred recording");
    film.writes("grading", "finished piece");
    return film;
}

void print_description(const Bytes &description)
{
    std::array<std::uint64_t, 3> counts{};
    require_answer(panel_read(description.data(), description.size(), counts.data()));
    std::cout << "Description: " << description.size() << " bytes, " << counts[0] << " clouds, " << counts[1] << " blocks, "
              << counts[2] << " edges\n";
}

// Why a position may not have a cloud, in words.
std::string why_not(const Bytes &description, std::size_t position, std::uint8_t cloud)
{
    std::uint64_t reason = 0;
    require_answer(panel_standing(description.data(), description.size(), position, cloud, &reason));
    return panel_reason_message(reason);
}

// What may be chosen for each block by itself; the panel greys out the rest, and says why.
void print_choices(const Builder &film, const Bytes &description)
{
    Placement masks{};
    require_answer(panel_masks(description.data(), description.size(), masks.data()));
    std::cout << "\nClouds to choose from\n";
    for (std::size_t block = 0; block < film.blocks().size(); block++) {
        for (std::uint8_t cloud = 0; cloud < film.clouds().size(); cloud++) {
            const bool offered = (masks[block] >> cloud & 1) == 1;
            std::cout << (offered ? "  [ ] " : "  [x] ") << film.blocks()[block] << " in the " << film.clouds()[cloud];
            std::cout << (offered ? "" : ": " + why_not(description, block, cloud)) << "\n";
        }
    }
}

void print_list(const std::vector<Row> &rows, std::size_t blocks)
{
    std::cout << "\nEvery secure placement, cheapest first\n";
    for (const Row &row : rows)
        print_row(row, blocks);
    std::cout << "  " << rows.size() << " options\n";
}

// The row that the user clicks on: where everything is, and what has to be moved.
void print_chosen(const Builder &film, const Bytes &description, const Row &row)
{
    std::array<std::uint8_t, PANEL_TRANSFERS> transfers{};
    std::uint64_t count = 0;
    require_answer(panel_transfers(description.data(), description.size(), row.placement.data(),
                                   transfers.data(), transfers.size(), &count));
    std::cout << "\nThe chosen row\n";
    print_row(row, film.blocks().size());
    for (std::size_t block = 0; block < film.blocks().size(); block++)
        std::cout << "  " << film.blocks()[block] << ": " << film.clouds()[row.placement[block]] << "\n";
    for (std::size_t at = 0; at < transfer_bytes * count; at += transfer_bytes)
        std::cout << "  to move: " << film.blocks()[transfers[at + 1]] << ", from " << film.clouds()[transfers[at + 2]] << " to "
                  << film.clouds()[transfers[at + 3]] << "\n";
}

// The buffer is too short at first. The refusal says what is needed, and the second call has that much.
void print_picture(const Bytes &description, const Placement &placement)
{
    std::uint64_t count = 0;
    std::vector<std::uint8_t> buffer(40);
    const auto picture = [&] {
        return panel_picture(description.data(), description.size(), placement.data(), buffer.data(), buffer.size(), &count);
    };
    std::cout << "\nIts picture\n";
    std::uint64_t status = picture();
    if (PANEL_NUMBER(status) == PANEL_SHORT_BUFFER) {
        std::cout << "  " << buffer.size() << " bytes: " << in_words(status) << "\n";
        buffer.resize(PANEL_PLACE(status));
        status = picture();
    }
    require_answer(status);
    std::cout << std::string(buffer.begin(), buffer.begin() + static_cast<std::ptrdiff_t>(count));
}

bool is_listed(const Bytes &description, const Placement &placement)
{
    const std::vector<Row> rows = list_of(description);
    return std::any_of(rows.begin(), rows.end(), [&](const Row &row) { return row.placement == placement; });
}

// The user drags a block to another cloud: what the placement then costs if it is secure, and otherwise why it is not.
void drag(const Builder &film, Placement placement, const std::string &block, const std::string &cloud)
{
    const Bytes description = film.bytes();
    placement[number_of(film.blocks(), block)] = static_cast<std::uint8_t>(number_of(film.clouds(), cloud));
    std::cout << "  " << block << " to the " << cloud << ", " << digits_of(placement, film.blocks().size()) << ": ";

    Amounts amounts{};
    const std::uint64_t status = panel_bill(description.data(), description.size(), placement.data(), amounts.data());
    if (status == 0) {
        const bool listed = is_listed(description, placement);
        print_amounts(amounts);
        std::cout << (listed ? "    It is a row.\n" : "    It is secure, and another placement of its option is the row.\n");
    } else {
        std::cout << in_words(status) << "\n";
    }
    if (PANEL_NUMBER(status) == PANEL_NO_CANDIDATE) {
        const std::size_t position = PANEL_PLACE(status);
        std::cout << "    why: " << why_not(description, position, placement[position]) << "\n";
    }
}

void print_drags(Builder film, const Placement &chosen)
{
    std::cout << "\nBlocks that the user drags, from the chosen row\n";
    drag(film, chosen, "finished piece", "machine room");
    drag(film, chosen, "blurred recording", "machine room");
    drag(film, chosen, "recording", "rented store");
    drag(film, chosen, "blurring", "rented store");
    film.pin("finished piece", "rented store");
    std::cout << "  The finished piece is pinned to the rented store.\n";
    drag(film, chosen, "finished piece", "machine room");
    film.pair("recording", "finished piece");
    std::cout << "  The recording and the finished piece must never meet.\n";
    drag(film, chosen, "grading", "machine room");
}

// Descriptions that are not accepted. An empty one has no bytes at all, and its pointer may be null.
void print_refusals(const Builder &film)
{
    std::cout << "\nDescriptions that are refused\n";
    std::array<std::uint64_t, 3> counts{};
    const auto print = [&](const char *what, const Bytes &description) {
        std::cout << "  " << what << ": " << in_words(panel_read(description.data(), description.size(), counts.data())) << "\n";
    };
    print("empty", Bytes());
    Bytes cut = film.bytes();
    cut.resize(cut.size() - 2);
    print("cut short", cut);
    Builder wrong = film;
    wrong.reads("grading", "recording");
    print("grading reads the open face", wrong.bytes());
}

void print_draws(const Bytes &description, std::size_t blocks)
{
    std::cout << "\nThe first rows alone, one draw each\n";
    Draws draws(description);
    for (std::size_t row = 0; row < drawn_rows; row++) {
        if (const std::optional<Row> drawn = draws.next())
            print_row(*drawn, blocks);
    }
}

// How many draws, from the start, answer the rows of the list.
std::size_t rows_as_listed(const Bytes &description, const std::vector<Row> &listed)
{
    Draws draws(description);
    std::size_t same = 0;
    while (const std::optional<Row> row = draws.next()) {
        if (same == listed.size() || row->placement != listed[same].placement || row->amounts != listed[same].amounts)
            break;
        same++;
    }
    return same;
}

// Threads need no lock: they read one description, and each has memory of its own for the answers.
void print_threads(const Bytes &description, const std::vector<Row> &listed)
{
    std::vector<std::future<std::size_t>> running;
    for (std::size_t thread = 0; thread < threads; thread++)
        running.push_back(std::async(std::launch::async, rows_as_listed, std::cref(description), std::cref(listed)));
    std::cout << "\nDrawn by " << threads << " threads at once\n";
    for (std::future<std::size_t> &same : running)
        std::cout << "  " << same.get() << " of " << listed.size() << " rows as listed\n";
}

void show_panel()
{
    const Builder film = interview();
    const Bytes description = film.bytes();
    const std::size_t blocks = film.blocks().size();
    print_description(description);
    print_choices(film, description);
    const std::vector<Row> rows = list_of(description);
    print_list(rows, blocks);
    const Row &chosen = rows.at(chosen_row);
    print_chosen(film, description, chosen);
    print_picture(description, chosen.placement);
    print_drags(film, chosen.placement);
    print_refusals(film);
    print_draws(description, blocks);
    print_threads(description, rows);
}

} // namespace

int main()
{
    try {
        show_panel();
    } catch (const std::exception &error) {
        std::cerr << "panel: " << error.what() << "\n";
        return 1;
    }
    if (!std::cout.flush()) {
        std::cerr << "panel: standard output does not take the text\n";
        return 1;
    }
    return 0;
}
