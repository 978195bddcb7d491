// Moments and states as text.

#include "state.h"

#include <array>
#include <cstdio>

namespace {

template <typename... Numbers>
std::string printed(const char *format, Numbers... numbers)
{
    std::array<char, 64> text;
    std::snprintf(text.data(), text.size(), format, numbers...);
    return text.data();
}

}

const State plain_closed = {Kind::Closed, {}};

std::string clock(int minute)
{
    return printed("%02d:%02d", minute / 60, minute % 60);
}

std::string text_of(const Moment &moment)
{
    return printed("%04d-%02d-%02d ", moment.year, moment.month, moment.day) + clock(moment.minute);
}

std::string text_of(const State &state)
{
    static const std::array<std::string, 5> kinds = {"Open", "Closed", "Unknown", "no interval", "gives up"};
    const std::string &kind = kinds[static_cast<std::size_t>(state.kind)];

    return state.comment.empty() ? kind : kind + " \"" + state.comment + "\"";
}
