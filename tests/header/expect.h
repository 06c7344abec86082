/* What the tests of the header share: an expectation is counted, and told with its line where it does not hold. */
#include "skwarzyna.h"

#include <stdio.h>
#include <string.h>

#ifdef __cplusplus
#define LANGUAGE "C++"
#else
#define LANGUAGE "C"
#endif

static int tried = 0;
static int failed = 0;

static void expect(int holds, int line, const char *text)
{
    tried += 1;
    if (!holds) {
        failed += 1;
        printf("header (%s): line %d: %s\n", LANGUAGE, line, text);
    }
}

#define EXPECT(holds) expect((holds) != 0, __LINE__, #holds)

/* Number and place of an answer in one number, so that both stand in one comparison. */
#define REFUSED(number, place) ((long)(number) * 1000000 + (long)(place))
#define ACCEPTED REFUSED(SKW_ACCEPTED, 0)
