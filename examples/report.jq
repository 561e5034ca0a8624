# The report of `regtry explore`, or what `regtry check --outcomes` prints of one source, as JSON:
#
#     regtry explore FILE .. | jq -R -n -f report.jq
#
# Of `check` it has the outcomes alone.
def told: "^(?<word>processes|length|crashes|tried|outcomes|outcome|least|fails) (?<rest>.*)$";

reduce (inputs | if test(": (no|a) schedule ") then {word: "checked", rest: "1"} else capture(told) end)
    as {$word, $rest} ({};
    if $word == "outcomes" then .outcomes = [] | .count = ($rest | tonumber)
    elif $word == "outcome" then .outcomes += [$rest | split("; ")]
    elif $word == "fails" then .fails = ($rest | split("; "))
    elif $word == "least" then
        .least = (if $rest == "none" then null elif $rest == "." then [] else $rest | split(" ") end)
    else .[$word] += ($rest | tonumber) end)
| if (.count // 0) == (.outcomes | length) and (has("least") or .checked == 1 and has("outcomes"))
  then del(.count, .checked)
  else error("no whole report of regtry explore, or of check --outcomes of one source") end
