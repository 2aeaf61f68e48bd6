"""The tests of svnask. They ask the program that `$SVNHIST_LIVE` names, or else the one that is built in this tree."""
# So that svnask is found where it is not installed.
import dev
