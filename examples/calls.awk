# Shows each call with its answer beside it. The files are the answers and the calls. Two calls that come again and again, as those of an impulse do, are shown once; a long answer
# is cut.

function is_call(i) { return i <= lines && text[i] !~ /^#/ && text[i] != "" }

# Whether the two calls from i on come again from j on, with the same answers.
function again(i, j) { return is_call(j) && is_call(j + 1) && text[i] == text[j] && text[i + 1] == text[j + 1] && said[i] == said[j] && said[i + 1] == said[j + 1] }

function show(i) { printf("%-30s %s\n", text[i], length(said[i]) > 60 ? substr(said[i], 1, 44) "..." : said[i]) }

NR == FNR { answer[++answers] = $0; next }
{ text[++lines] = $0 }
is_call(lines) { said[lines] = answer[++calls] }
END {
  for (i = 1; i <= lines; i++) {
    if (!is_call(i)) { print text[i]; continue }
    for (times = 0; again(i, i + 2 * (times + 1)); times++);
    show(i)
    if (times < 2) continue
    show(i + 1)
    printf("%-30s both %d times more\n", "", times)
    i += 2 * times + 1
  }
}
