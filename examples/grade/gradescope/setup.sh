#!/bin/bash
# Gradescope's setup.sh, which is run once, where the image is made. It fails where what run_autograder needs isn't in the archive or
# in the image, or where the suite is wrong. AUTOGRADER is the folder in place of /autograder, to try it elsewhere.
set -eu
unset CDPATH
cd "${AUTOGRADER:-/autograder}/source"
command -v python3
command -v timeout
chmod +x xvsh
./xvsh --version
# an empty script need not pass
./xvsh grade suite.toml - </dev/null || [ $? -eq 3 ]
