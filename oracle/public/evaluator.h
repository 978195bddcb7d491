// KOpeningHours, a public evaluator of the notation: one line, asked for its state at moments.

#ifndef EVALUATOR_H
#define EVALUATOR_H

#include "state.h"

#include <KOpeningHours/OpeningHours>

#include <QByteArray>

#include <string>

class Evaluator
{
public:
    explicit Evaluator(const std::string &line);

    bool reads() const;
    // Its own name for what is wrong with the line.
    std::string error() const;
    State at(const Moment &moment);

    // Takes the clock to be one that is never put forward or back, and keeps its warnings to itself.
    static void prepare();

private:
    QByteArray m_line;
    KOpeningHours::OpeningHours m_hours;
};

#endif
