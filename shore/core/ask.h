// A question asked: understood, checked, planned; answered both ways and compared word for word.
#ifndef SHORE_ASK_H
#define SHORE_ASK_H

#include <memory>
#include <string>

#include "engine.h"
#include "faults.h"
#include "locate.h"
#include "plan.h"
#include "types.h"

namespace shore {

struct Reply {
    std::unique_ptr<Question> question;
    // What it is asked over.
    Packed over;
    // The first number that one of the calls gave, 0 where the question is accepted and answered.
    std::uint64_t number = 0;
    // Where the text is not understood or the question is refused: the place and what is wrong there.
    Located located;
    std::string lines;
    std::vector<Step> steps;
    TypeOf type;
    Words loops;
    Words plan;
    Value value;
    bool answered = false;

    bool understood() const { return question->understood(); }
    bool accepted() const { return understood() && number == 0; }
    // Both ways gave the same number and the same words.
    bool same() const { return loops.number == plan.number && loops.words == plan.words; }
};

// Reads and checks a question, and makes its plan; nothing is answered yet.
inline Reply prepared(Engine &engine, const Stored &stored, const std::string &typed) {
    Reply reply;
    reply.question = std::make_unique<Question>(typed, stored);
    reply.over = packed(stored);
    const Question &question = *reply.question;
    if (!question.understood()) {
        reply.located.at = question.fault.at;
        reply.located.what = said(question);
        return reply;
    }
    reply.type = Typing(question).of(question.tree.root);
    reply.number = engine.check(reply.over, question.bytes);
    if (reply.number != 0) {
        reply.located = Locating(engine, reply.over, question, reply.number).located();
        return reply;
    }
    const Lines lines = engine.lines(reply.over, question.bytes);
    reply.number = lines.number;
    reply.lines = lines.text;
    reply.steps = plan_of(lines.text, question.stored.tables);
    reply.located.at = question.tree.nodes[question.tree.root].at;
    return reply;
}

// What both ways gave: the value that they agree on.
inline void settle(Reply &reply) {
    reply.number = reply.loops.number != 0 ? reply.loops.number : reply.plan.number;
    std::size_t at = 0;
    reply.answered = reply.number == 0 && read_value(reply.type, reply.loops.words, at, reply.value) &&
                     at == reply.loops.words.size();
}

// Answers an accepted question both ways, each by one call.
inline void answer(Engine &engine, Reply &reply) {
    reply.loops = engine.by_loops(reply.over, reply.question->bytes);
    reply.plan = engine.by_plan(reply.over, reply.question->bytes);
    settle(reply);
}

inline Reply ask(Engine &engine, const Stored &stored, const std::string &typed) {
    Reply reply = prepared(engine, stored, typed);
    if (reply.accepted()) {
        answer(engine, reply);
    }
    return reply;
}

} // namespace shore

#endif
