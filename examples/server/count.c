/* A second patch, over the first: it also counts the Cs, in a word that it brings along. */
char grade_fixed(long points);

long low; /* how many Cs there were */

char grade_counted(long points)
{
    char grade = grade_fixed(points);
    if (grade == 'C')
        __atomic_fetch_add(&low, 1, __ATOMIC_RELAXED);
    return grade;
}
