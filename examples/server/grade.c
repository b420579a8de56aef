/* The grade for a number of points: A from 90 on, B from 80 on, else C. It is wrong for 90 and for 80. */
char grade(long points)
{
    if (points > 90)
        return 'A';
    if (points > 80)
        return 'B';
    return 'C';
}
