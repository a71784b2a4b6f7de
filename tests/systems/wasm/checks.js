/** Counts checks. */

export class Report {
  passed = 0;
  failed = 0;
  lines = [];

  see(what, is_right, detail = "") {
    if (is_right) {
      this.passed++;
    } else {
      this.failed++;
      this.lines.push(`FAIL ${what}: ${detail}`);
    }
  }

  /** That a value is the wanted one, by its text. */
  same(what, got, wanted) {
    const [one, other] = [got, wanted].map(shown);
    this.see(what, one === other, `${one}, not ${other}`);
  }

  /** That a call is refused with this status, or throws an error of this class with this text. */
  refused(status, call, text = "") {
    let got = "nothing";
    try {
      call();
    } catch (fault) {
      got = typeof status === "number" ? fault.status ?? fault : fault.constructor === status ? status : fault;
      if (text && !fault.message.includes(text)) got = fault;
    }
    this.see(`${call}`, got === status, `${got}, not ${typeof status === "number" ? status : status.name}`);
  }

  end() { return [...this.lines, `${this.passed} passed, ${this.failed} failed`].join("\n"); }
}

function shown(value) {
  return JSON.stringify(value, (_, it) => ArrayBuffer.isView(it) ? [...it] : typeof it === "bigint" ? String(it) : it);
}
