/* A step of a search through a list, a tree or a table. Only c/tests/table_growth.c counts them. */
#ifdef NICL_COUNT_STEPS
extern unsigned long long nicl_steps;
#define NICL_STEP() ((void)nicl_steps++)
#else
#define NICL_STEP() ((void)0)
#endif
