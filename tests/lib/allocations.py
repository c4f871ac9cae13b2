"""Makes each allocation of one run of a program fail in turn: the first call for memory, then the
second, and so on up to a run in which none is left to fail. Imported by `allocations`."""
from failing_allocation import run

# No run makes as many calls for memory.
TOO_MANY = 5000


def each_fails(count, program, words, wanted, without_memory, said, input, status=0, mark=0):
    """Each answer has to be the whole one, with its status, or one of these without memory, with
    status 1, each of which has to come up, and that last run has to be reached. Where there is a
    mark, the whole run makes two allocations of so many bytes, and no other may come between."""
    what = " ".join([program.name, *words.split()[:1]])
    answers, whole, ran = dict.fromkeys(without_memory, 0), 0, None
    for failing in range(1, TOO_MANY + 1):
        ran = run(program, words, said, failing, input, mark)
        answer = ran.said.decode(errors="replace")
        if ran.has_failed and ran.status == 1 and answer in answers:
            answers[answer] += 1
            count.passed += 1
        else:
            whole += 1
            got = (ran.status, answer)
            count.expect(f"{what} where allocation {failing} fails", got, (status, wanted))
        if not ran.has_failed:
            break
    print(
        f"allocations of {what} that failed: {failing - 1};"
        f" answers without memory: {sum(answers.values())}, whole ones: {whole}",
        flush=True,
    )
    count.expect(f"{what}: a run in which none fails", ran.has_failed, False)
    if mark:
        apart = [it - ran.marks[0] for it in ran.marks]
        count.expect(f"{what}: two allocations of {mark} bytes, one after the other", apart, [0, 1])
    count.expect(f"{what}: answers that never came", [it for it in answers if not answers[it]], [])
