/** What the tests ask of the page. Chromium runs this before the page's own scripts. All is in one global, so no module
 * of the page finds here what it has forgotten to import. */
{
  const the = (id) => document.getElementById(id), all = (selector) => [...document.querySelectorAll(selector)];
  const box = (it) => it.getBoundingClientRect(), style = (it) => getComputedStyle(it);
  const painted = () => new Promise((done) => requestAnimationFrame(() => requestAnimationFrame(done)));
  /** A letter of a text. */
  const letter = (text, at) => {
    const range = document.createRange();
    range.setStart(text, at);
    range.setEnd(text, at + 1);
    return range;
  };
  /** The last text inside an element. */
  const last_text = (it) => it.lastChild ? last_text(it.lastChild) : it;
  const probes = {};

  /** How many replies are shown, if one of them is near the view. */
  probes.count = () => Number(document.querySelector("#replies > li")?.getAttribute("aria-setsize") ?? 0);

  /** All lines of the replies, unfolded, which are brought into the document in turn. */
  probes.replies = async () => {
    const surface = the("surface"), found = [], text = (it) => (it.className ? "" : "\n") + it.textContent;
    if (!the("whole").checked) the("whole").click();
    const height = box(the("probe")).height;
    let count = 0; // a reply may be far below the first line
    const is_whole = () => count && Object.keys(found).length === count;
    for (let top = 0; top < surface.scrollHeight && !is_whole(); top += 100 * height) {
      surface.scrollTo(0, top);
      await painted();
      for (const it of the("replies").children) {
        count = Number(it.getAttribute("aria-setsize"));
        found[it.getAttribute("aria-posinset") - 1] = [...it.querySelectorAll("samp")].map(text).join("");
      }
    }
    for (let item = 0; item < count; item++) if (found[item] === undefined) return `item ${item} isn't shown`;
    return found.join("").slice(1) + (count ? "\n" : "");
  };

  /** The line of each reply, and how far below that line it is, in rows. */
  probes.beside = () => all("#replies > li").map((it) => {
    const off = box(it).top - box(all("#numbers > div")[it.dataset.line - 1]).top;
    return [Number(it.dataset.line), off / box(the("probe")).height];
  });

  /** What each item shows: the line that it is of, and its texts. */
  probes.items = () => all("#replies > li").map((it) =>
    [it.dataset.line ?? "", ...[...it.querySelectorAll("code, em, samp")].map((it) => it.textContent)]);

  /** Whether an element is wholly in the view of the script and the replies. */
  probes.is_in_view = (selector) => {
    const view = box(the("surface")), it = box(document.querySelector(selector));
    return view.top <= it.top && it.bottom <= view.bottom;
  };

  /** The lines of the script that are drawn, each as its parts with their kinds. */
  probes.drawn = () => [...the("colours").children].map((row) =>
    [...row.childNodes].map((it) => [it.className ?? "", it.textContent]));

  /** For each line that is drawn its number, where the text area has it from its top, and where its number and its
   * letters are. The last line ends where the text does, after as many lines of one height. */
  probes.places = () => {
    const area = the("script"), top = box(area).top, bare = document.body.appendChild(area.cloneNode());
    Object.assign(bare.style, { position: "fixed", height: 0, font: style(area).font });
    bare.value = area.value;
    const height = bare.scrollHeight / area.value.split("\n").length, rows = [...the("colours").children];
    bare.remove();
    return [...the("numbers").children].map((it, n) =>
      [Number(it.textContent), (it.textContent - 1) * height, box(it).top - top, box(rows[n]).top - top]);
  };

  /** How long a key takes until it is painted, in milliseconds, at best of three: in a text area that has no colours,
   * and in the page's. */
  probes.typed = async () => {
    const ours = the("script"), took = [[], []];
    const bare = Object.assign(document.createElement("textarea"), { value: ours.value, wrap: "off" });
    document.body.append(bare);
    for (const area of [bare, ours, bare, ours, bare, ours]) {
      area.focus();
      area.setSelectionRange(0, 0);
      area.scrollTop = 0;
      for (let n = 0; n < 5; n++) await new Promise(requestAnimationFrame);
      const begun = performance.now();
      document.execCommand("insertText", false, "x");
      await painted();
      took[Number(area === ours)].push(performance.now() - begun);
    }
    bare.remove();
    return took.map((it) => Math.min(...it));
  };

  /** The least contrast of a text with its ground, of all that are shown. */
  probes.contrast = () => {
    const numbers = (colour) => colour.match(/[\d.]+/g).map(Number);
    const part = (it) => it <= 10.31 ? it / 3294.6 : ((it / 255 + 0.055) / 1.055) ** 2.4;
    const light = ([r, g, b]) => 0.2126 * part(r) + 0.7152 * part(g) + 0.0722 * part(b);
    const ground = (it) => {
      const found = numbers(style(it).backgroundColor);
      return found[3] === 0 && it.parentElement ? ground(it.parentElement) : found;
    };
    const contrast = (it) => {
      const [low, high] = [light(numbers(style(it).color)), light(ground(it))].sort((a, b) => a - b);
      return (high + 0.05) / (low + 0.05);
    };
    const has_text = (it) => [...it.childNodes].some((node) => node.nodeType === 3 && node.data.trim());
    return Math.min(...all("body *").filter(has_text).map(contrast));
  };

  /** The lines of the replies whose last letter can't be reached whole by scrolling: what is painted there is another
   * element, or it isn't on the screen. */
  probes.cut_off = () => all("#replies samp:not(.folded), #replies p, #replies code").filter((row) => {
    const text = last_text(row), surface = the("surface");
    if (!text.length) return false;
    const last = letter(text, text.length - 1);
    surface.scrollBy(0, box(last).top - box(surface).top - 80);
    surface.scrollTo(0, surface.scrollTop);
    const beyond = box(last).right - box(surface).right;
    if (beyond > -20) surface.scrollBy(beyond + 50, 0);
    scrollBy(0, box(last).top - 0.7 * innerHeight);
    const { left, right, top, height } = box(last);
    const seen = (part) => document.elementFromPoint((left + right) / 2, top + part * height);
    return ![0.15, 0.5, 0.85].every((it) => row.contains(seen(it)));
  }).map((row) => row.textContent);

  /** The texts outside the script and the replies whose first or last letter isn't painted where it is. */
  probes.hidden = () => {
    const texts = document.createTreeWalker(document.body, NodeFilter.SHOW_TEXT), hidden = [];
    const is_painted = (text, at) => {
      scrollBy(0, box(letter(text, at)).top - innerHeight / 2);
      const { left, right, top, bottom, width } = box(letter(text, at));
      return !width || document.elementFromPoint((left + right) / 2, (top + bottom) / 2) === text.parentElement;
    };
    for (let text; text = texts.nextNode();) {
      const first = text.data.search(/\S/), last = text.data.trimEnd().length - 1;
      if (first < 0 || text.parentElement.closest("#surface, h1")) continue;
      if (![first, last].every((at) => is_painted(text, at))) hidden.push(text.data);
    }
    return hidden;
  };

  /** The controls that are shown and are smaller than a finger. */
  probes.small = () => all("button, select, nav a, label").filter((it) => it.offsetHeight && !it.closest("#replies"))
    .filter((it) => it.offsetHeight < 44 || it.offsetWidth < 44).map((it) => it.id || it.textContent);

  /** How often the surface changes its class in some time. */
  probes.changes = () => new Promise((done) => {
    let count = 0;
    const seen = new MutationObserver((them) => count += them.length);
    seen.observe(the("surface"), { attributeFilter: ["class"] });
    setTimeout(() => done(count), 300);
  });

  /** What is copied of what is chosen, by the page or, where that does nothing, by the browser. */
  probes.copied = () => {
    const data = new DataTransfer(), words = { clipboardData: data, bubbles: true, cancelable: true };
    const is_plain = document.activeElement.dispatchEvent(new ClipboardEvent("copy", words));
    return is_plain ? getSelection().toString() : data.getData("text/plain");
  };

  /** Chooses from a letter of a row of replies to one of another; a row below 0 counts from the last one. */
  probes.choose = (first, begin, last, end) => {
    const rows = all("#replies samp:not(.folded)");
    getSelection().setBaseAndExtent(last_text(rows.at(first)), begin, last_text(rows.at(last)), end);
  };

  /** What is on paper of the script and the replies. */
  probes.printed = () => all("#replies code, #replies samp, #colours > div")
    .filter((it) => it.checkVisibility() && style(it).clipPath === "none").map((it) => it.textContent);

  /** The title, and which rules refuse things that no page needs: a form last, because it would lead elsewhere. */
  probes.refused = async () => {
    const refused = new Set();
    document.addEventListener("securitypolicyviolation", (it) => refused.add(it.effectiveDirective));
    const put = (name, values) => document.body.appendChild(Object.assign(document.createElement(name), values));
    put("script", { textContent: "document.title = 'changed'" });
    put("script", { src: "data:text/javascript,1" });
    put("style", { textContent: "body { color: red }" });
    put("img", { src: "http://localhost:1/" });
    put("iframe", { src: "https://localhost:1/" });
    put("base", { href: "http://localhost:1/" });
    await fetch("http://localhost:1/").catch(() => {});
    try { new Worker("data:text/javascript,1"); } catch {}
    put("form", { action: "http://localhost:1/" }).submit();
    const end = Date.now() + 20000; // the form's refusal comes some time later
    while (refused.size < 8 && Date.now() < end) await new Promise((done) => setTimeout(done, 50));
    return [document.title, [...refused].sort()];
  };

  /** Whether the icon is shown. */
  probes.image = () => new Promise((done) => Object.assign(new Image(), {
    src: document.querySelector("link[rel=icon]").href,
    onload: () => done(true),
    onerror: () => done(false),
  }));

  globalThis.probes = { ...probes, the, all, box, style, painted };
}
