"""The table and the picture of what clients/rate.py has found."""
import statistics

from bench import COLOURS


def short(number):
    """Returns the text of a number with three digits that count."""
    return f"{float(f'{number:.3g}'):,.0f}" if number >= 100 else f"{number:.3g}"


def told(values, text=short):
    """Returns the middle of the values, with the lowest and the highest."""
    middle = text(statistics.median(values))
    return middle if len(values) == 1 else f"{middle} ({text(min(values))} to {text(max(values))})"


def parts(pairs):
    """Returns what part the server's rate was of nginx's, for each run and the run of nginx before it."""
    return [ours["rate"] / nginx["rate"] for ours, nginx in pairs]


def table(found):
    """Returns the measurements as a table: `found` has by name and number of connections the pairs of a run and the run of nginx before it."""
    heads = ("requests", "connections", "a second", "nginx", "of nginx", "p50, us", "p99, us", "nginx: p50", "p99", "wrk is busy", "with nginx")
    lines = [f"| {' | '.join(heads)} |", "|---|" + "---:|" * (len(heads) - 1)]
    for (name, connections), pairs in found.items():
        ours, nginx = zip(*pairs)
        cells = [name, str(connections), told([it["rate"] for it in ours]), told([it["rate"] for it in nginx]), told(parts(pairs), "{:.2f}".format)]
        cells += [short(statistics.median(it[key] for it in runs)) for runs in (ours, nginx) for key in ("p50", "p99")]
        cells += [f"{100 * max(it['busy'] for it in runs):.0f} %" for runs in (ours, nginx)]
        lines.append(f"| {' | '.join(cells)} |")
    return "\n".join(lines) + "\n"


def picture(found):
    """Returns a picture: what part of nginx's rate the server has, against the number of connections."""
    names, counts = [*dict.fromkeys(name for name, _ in found)], sorted({count for _, count in found})
    high = max(1.0, max(max(parts(pairs)) for pairs in found.values()))
    place = lambda count, part: (110 + 420 * counts.index(count) / max(1, len(counts) - 1), 340 - 290 * part / high)
    drawn = ['<svg xmlns="http://www.w3.org/2000/svg" viewBox="0 0 960 400" font-family="sans-serif" font-size="12">']
    drawn.append('<rect width="960" height="400" fill="white"/><text x="80" y="24" font-size="14">Requests a second, as a part of those that nginx')
    drawn.append("answers with a constant reply, against the number of connections</text>")
    for count in counts:
        x, _ = place(count, 0)
        drawn.append(f'<path d="M{x:.0f} 50V340" stroke="#ddd"/><text x="{x:.0f}" y="360" text-anchor="middle">{count}</text>')
    for tenth in range(0, int(10 * high) + 1, 2 if high < 2 else 5):
        (_, y), colour = place(counts[0], tenth / 10), "#555" if tenth == 10 else "#ddd"
        drawn.append(f'<path d="M80 {y:.0f}H560" stroke="{colour}"/><text x="72" y="{y + 4:.0f}" text-anchor="end">{tenth / 10:.1f}</text>')
    for index, name in enumerate(names):
        colour, dash = COLOURS[index % len(COLOURS)], "" if index < len(COLOURS) else ' stroke-dasharray="6 3"'
        points = []
        for count in (it for it in counts if (name, it) in found):
            values, aside = parts(found[name, count]), 3 * (index - len(names) / 2)
            x, low, top, y = place(count, 0)[0] + aside, *(place(count, it)[1] for it in (min(values), max(values), statistics.median(values)))
            points.append(f"{x:.1f} {y:.1f}")
            drawn.append(f'<path d="M{x:.1f} {low:.1f}V{top:.1f}" stroke="{colour}"/><circle cx="{x:.1f}" cy="{y:.1f}" r="3" fill="{colour}"/>')
        drawn.append(f'<path d="M{"L".join(points)}" fill="none" stroke="{colour}" stroke-width="2"{dash}/>')
        drawn.append(f'<path d="M580 {60 + 22 * index}h24" stroke="{colour}" stroke-width="2"{dash}/><text x="612" y="{64 + 22 * index}">{name}</text>')
    return "\n".join([*drawn, "</svg>", ""])
