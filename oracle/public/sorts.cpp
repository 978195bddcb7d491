// The change to the line for each sort of difference.

#include "sorts.h"

#include "evaluator.h"
#include "line.h"

#include <QDate>

#include <functional>

namespace {

std::string as_it_is(const Asked &asked)
{
    return asked.line;
}

std::string with_all_weekdays(const Asked &asked)
{
    return replaced(asked.line, ", (?=\\d\\d:)", ", Mo-Su ");
}

std::string with_years_as_ranges(const Asked &asked)
{
    return replaced(asked.line, "(^|[;,] )(\\d{4}) (?=" + several_months + ")", "$1$2-$2 ");
}

// A folded line has no months that wrap.
std::string with_march_after_february(const Asked &asked)
{
    if (asked.moment.month != 2 || asked.moment.day != 29) {
        return asked.line;
    }
    return replaced(replaced(asked.line, "-Feb(?=[ ,])", "-Mar"), "Feb(?=[ ,])", "Feb-Mar");
}

std::string with_each_rule(const std::string &line, const std::function<std::string(const Rule &)> &changed)
{
    std::string result;
    for (const Rule &rule : rules_of(line)) {
        result += rule.before + changed(rule);
    }
    return result;
}

std::string with_an_earlier_start(const Asked &asked)
{
    const int minute = asked.moment.minute;
    if (minute == 0) {
        return asked.line;
    }

    return with_each_rule(asked.line, [minute](const Rule &rule) {
        const bool is_additional = rule.before == ", ";
        return is_additional ? replaced(rule.text, "\\b" + clock(minute) + "-24:00", clock(minute - 1) + "-24:00") : rule.text;
    });
}

std::string with_more_weeks(const Asked &asked)
{
    const QDate date(asked.moment.year, asked.moment.month, asked.moment.day);
    if (date.dayOfWeek() != Qt::Monday || date.weekNumber() != 1) {
        return asked.line;
    }

    return with_each_rule(asked.line, [](const Rule &rule) {
        const bool ends_at_midnight = rule.text.find("-24:00") != std::string::npos;
        return ends_at_midnight ? replaced(rule.text, "week 01[\\d,-]*", "$&,52-53") : rule.text;
    });
}

bool speaks(const State &state)
{
    return !(state == plain_closed) && state.kind != Kind::NoInterval && state.kind != Kind::GivesUp;
}

// The rule that speaks of the moment when it stands alone: of folded rules there is not more than one.
std::optional<std::string> speaking_rule(const Asked &asked)
{
    for (const Rule &rule : rules_of(asked.line)) {
        if (speaks(Evaluator(rule.text).at(asked.moment))) {
            return rule.text;
        }
    }
    return std::nullopt;
}

std::string with_the_closed_rule_alone(const Asked &asked)
{
    const bool we_say_closed = asked.ours.kind == Kind::Closed;
    const bool they_say_another = asked.theirs.kind == Kind::Open || asked.theirs.kind == Kind::Unknown;
    return we_say_closed && !they_say_another ? speaking_rule(asked).value_or(asked.line) : asked.line;
}

// No interval is taken for Closed: from then on nothing opens.
bool agree(const State &theirs, const State &ours)
{
    return theirs == ours || (theirs.kind == Kind::NoInterval && ours == plain_closed);
}

}

const std::array<Sort, 7> sorts = {{
    {"no interval from the moment on, where we say Closed", "no change", as_it_is},
    {"an Additional rule without days", "all weekdays are written before its spans", with_all_weekdays},
    {"one year before several months", "the year is written as a range", with_years_as_ranges},
    {"29 February where months end with Feb", "they end with Mar", with_march_after_february},
    {"the first minute of an Additional rule's span up to 24:00", "it begins a minute earlier", with_an_earlier_start},
    {"the first day of week 01, a span up to 24:00", "weeks 52 and 53 are added", with_more_weeks},
    {"the comment of a Closed rule is not told", "all other rules are taken away", with_the_closed_rule_alone},
}};

std::optional<State> told_by_rules(const Asked &asked)
{
    bool gives_up = false;

    for (const Rule &rule : rules_of(asked.line)) {
        const State state = Evaluator(rule.text).at(asked.moment);
        if (speaks(state)) {
            return state;
        }
        gives_up = gives_up || state.kind == Kind::GivesUp;
    }
    return gives_up ? std::nullopt : std::optional(plain_closed);
}

std::optional<std::size_t> sort_of(Asked asked)
{
    for (std::size_t place = 0; place < sorts.size(); ++place) {
        asked.line = sorts[place].changed(asked);
        asked.theirs = Evaluator(asked.line).at(asked.moment);

        if (asked.theirs.kind == Kind::GivesUp) {
            asked.theirs = told_by_rules(asked).value_or(asked.theirs);
        }
        if (agree(asked.theirs, asked.ours)) {
            return place;
        }
    }
    return std::nullopt;
}

Asked with_all_changes(Asked asked)
{
    for (const Sort &sort : sorts) {
        asked.line = sort.changed(asked);
        asked.theirs = Evaluator(asked.line).at(asked.moment);
    }
    return asked;
}

bool gives_up_on_months_and_weeks(const Asked &asked)
{
    return asked.theirs.kind == Kind::GivesUp && has_months_and_weeks(asked.line);
}

bool is_unanswered(const Asked &asked)
{
    return asked.ours == plain_closed && gives_up_on_months_and_weeks(asked) && !told_by_rules(asked);
}
