/*
 * Tests of the calls as a host in C makes them: verdicts and outputs worked out by hand, slices against unreadable
 * pages, and a small stack. The other files of this folder bring them (suite.h).
 * Prints what failed, what was measured, and at last `N passed, M failed`; status 0 only where none failed.
 */
#include "guard.h"
#include "suite.h"

int main(void)
{
    guard_open();
    guard_thread();
    suite_run();
    return tally_end();
}
