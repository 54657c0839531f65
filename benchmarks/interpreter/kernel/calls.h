/* The calls of U, in a7, and how the kernel tells that it ended a program. */
#pragma once

enum { END, WRITE_TEXT, YIELD, GROW, FORK, WAIT, SPAWN, SLEEP, SHARE, PEEK, TAKE_MARKS };
enum { KILLED = 256 }; /* and the code of the exception more */
enum { INIT, SORT, COUNT, LOCKS, DIGEST, WILD };
