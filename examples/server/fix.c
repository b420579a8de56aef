/* The patch: a grade that is right at its bounds too. */
char grade_fixed(long points)
{
    if (points >= 90)
        return 'A';
    if (points >= 80)
        return 'B';
    return 'C';
}
