/* The host's side: text goes to standard output. */
#include <stdio.h>

#include "requests.h"

void put_text(const char *text) { fputs(text, stdout); }
