# One line on what ./test printed: what passed, of which kind, how long it took, and what was left out.
# usage: awk -v seconds=N -f dist/tests/summary.awk FILE

function number(text) { gsub(/[^0-9]/, "", text); return text + 0 }
function part(count, what) { if (count) said = said (said ? ", " : "") count " " what }

/^tests\/[a-z_]+\.toml: [0-9]+ tests, [0-9]+ runs/ { scripts += number($2); runs += number($4) }
/^tests\/[a-z_]+\.[a-z]+: [0-9]+ rows, [0-9]+ runs/ { rows += number($2); runs += number($4) }
/^[0-9]+ drawn scripts/ { drawn += number($1) }
/ drawn sessions hold$/ { drawn += number($3) }
/^examples of the pages: [0-9]+ run/ { examples += number($5) }
/^(gradescope|slurm|github|table|class|examples\/[a-z]+)[\/:]/ { graders++ }
/^(dist|bindings)\/tests\/[a-z]+: [0-9]+ (tests|commands)/ { installs += number($2) }
/^bindings\/test: / && !/left out/ { library++ }
match($0, /left out, since [^:]+: /) {
    reason = substr($0, RSTART + 16, RLENGTH - 18)
    sub(/^there is no /, "", reason)
    without = without (without ? ", " : "") reason
}
match($0, /^[a-z\/]+: left out: /) { without = without (without ? "; " : "") substr($0, RLENGTH + 1) }
END {
    part(scripts, "scripts and " rows " rows (" runs " runs)")
    part(drawn, "drawn scripts and sessions")
    part(examples, "examples of the pages")
    part(graders, "checks of what grades")
    part(installs, "of what installs")
    part(library, "of the library")
    print "passed in " seconds " seconds: " said "; left out: " (without ? without : "nothing")
}
