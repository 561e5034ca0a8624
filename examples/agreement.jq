# What processes decide together, judged in a report that report.jq made JSON: the outcomes that break a
# relation, as patterns for regtry find.
#
#     jq -r -L examples 'include "agreement"; broken(at_most(2))' report.json

# The first numbers of the processes that are done and have one: what they decided.
def decided: [.[] | capture("^done (?<first>[0-9]+)").first | tonumber];

# At most so many values are decided.
def at_most($count): unique | length <= $count;

# No two values are further apart.
def apart($most): max - min <= $most;

# Where one process commits, which is 10 and its value below 10, each decides that value.
def adopt_commit: all(.[]; . < 10) or (map(. % 10) | unique | length == 1);

# The outcomes whose decisions break a relation. There has to be one with two decisions, since else nothing is
# judged.
def broken(relation):
    if any(.outcomes[]; decided | length > 1) then . else error("no outcome has two decisions") end
    | .outcomes[] | select(decided | length > 0 and (relation | not)) | join("; ");
