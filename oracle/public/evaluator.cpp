// Questions to KOpeningHours, and its answers as states.

#include "evaluator.h"

#include <KOpeningHours/Interval>

#include <QDateTime>
#include <QLoggingCategory>
#include <QMetaEnum>

using KOpeningHours::Interval;
using KOpeningHours::OpeningHours;

namespace {

Kind kind_of(Interval::State state)
{
    switch (state) {
    case Interval::Open:
        return Kind::Open;
    case Interval::Closed:
        return Kind::Closed;
    case Interval::Unknown:
        return Kind::Unknown;
    case Interval::Invalid:
        break;
    }
    return Kind::NoInterval;
}

}

Evaluator::Evaluator(const std::string &line)
    : m_line(QByteArray::fromStdString(line))
    , m_hours(m_line)
{
}

bool Evaluator::reads() const
{
    return m_hours.error() == OpeningHours::NoError;
}

std::string Evaluator::error() const
{
    return QMetaEnum::fromType<OpeningHours::Error>().valueToKey(m_hours.error());
}

State Evaluator::at(const Moment &moment)
{
    const QDate date(moment.year, moment.month, moment.day);
    const QTime time(moment.minute / 60, moment.minute % 60);
    const auto interval = m_hours.interval(QDateTime(date, time));

    if (reads()) {
        return {kind_of(interval.state()), interval.comment().toStdString()};
    }

    // It doesn't answer any more after it has given up, unless it reads the line anew.
    m_hours.setExpression(m_line);
    return {Kind::GivesUp, {}};
}

void Evaluator::prepare()
{
    qputenv("TZ", "UTC");
    QLoggingCategory::setFilterRules(QStringLiteral("org.kde.kopeninghours.warning=false"));
}
