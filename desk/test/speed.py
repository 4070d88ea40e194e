"""How long an answer takes from the key that asks for it until it is drawn, in the page itself."""
import os
import statistics

from hands import OTHERS, TABLE


def run(desk):
    desk.browser.run("performance.clearMeasures()")
    for notation in TABLE[4:9] + OTHERS[:3]:
        desk.browser.run_through(desk.steps(notation), pause=150)  # as fast as a person presses
    times = desk.browser.run("return performance.getEntriesByName('answer').map((measure) => measure.duration)")
    median = statistics.median(times)
    print(f"answers to {len(times)} keys: median {median:.0f} ms, 19 of 20 within {sorted(times)[len(times) * 19 // 20]:.0f} ms, the worst {max(times):.0f} ms; load {os.getloadavg()[0]:.1f} on {os.cpu_count()} cores")
    desk.checks.true("answers within 50 ms", median < 50 * desk.patience)
