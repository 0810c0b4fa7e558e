"""An independent listing of a job's tracks, by brute force.

It is written from the rules in docs/subject.md and docs/job-file.md and shares
nothing with the resolver: it builds every admissible track of a ladder, sorts
them all and prints the first ones. Run everything from the repository's root:

    python3 -m brute.listing < JOB                    list one job
    python3 -m brute.selftest                         the worked cases
    python3 -m brute.make_fixture CRATE               write CRATE/stdin, CRATE/stdout
    python3 -m brute.make_fixture --check CRATE       compare with what is stored
    python3 -m brute.compare PROGRAM --seed 7 --count 500

reader        the job file
costs         Travel, Worst step, Pair
ladder        moves, tracks, the peel order, the list of a ladder
arm, sources  the poses of a waypoint
filters       the envelope and the turn count
book          what each call answers, told by rungs, closed or not, and a count
listing       the listing of a job
writer        a job file from its parts, lawful or not
generate      the jobs of the stored comparison, and fresh random ones
"""
