// Two runs in one page have one span and one cursor: what is done in one is done in the other too.
// Keys and buttons go to the run that was used last.

class Pair {
  constructor() {
    Object.assign(this, {active: 'first-', runs: {}, awaited: 2, shown: {}});
    this.both = new Promise(resolve => { this.begin = resolve; });
  }

  // A run is there, or has no line and is null. Waits for the other one.
  join(name, run) {
    if (run) this.runs[name] = run;
    this.awaited--;
    if (!this.awaited) {
      this.activate(Object.keys(this.runs).sort()[0]);
      const ends = this.all().flatMap(it => it.ends());
      for (const it of this.all()) it.widen(Math.min(...ends), Math.max(...ends));
      this.begin();
    }
    return this.both;
  }

  // A run is drawn: what tests look at.
  drawn(name, seen) {
    this.shown[name.slice(0, -1)] = seen;
    if (Object.keys(this.shown).length === this.all().length) window.qauditPage = this.shown;
  }

  all() { return Object.values(this.runs); }

  otherOf(name) { return this.runs[name === 'first-' ? 'second-' : 'first-']; }

  // All y axes are as wide as the widest, so that one time is at one place in all diagrams.
  widthOfLabels() { return Math.max(...this.all().map(it => it.widthOfLabels())); }

  activate(name) {
    this.active = name;
    for (const [at, run] of Object.entries(this.runs)) run.mark(at === name);
  }

  // Whether the address names a line of one of them.
  get isNamed() { return /^#(first|second)=\d/.test(location.hash); }
}

const pair = new Pair();
