// Makes the pages smoother, and nothing needs it: a filter finds while one types, `/` goes to it, a box chooses all files of a page, and a file
// that is too large is told before it is sent.
"use strict";

const chooseAll = () => {
    for (const head of document.querySelectorAll("th.choice")) {
        const all = document.createElement("input"), label = document.createElement("label"), text = document.createElement("span");
        all.type = "checkbox";
        text.textContent = "Choose all of this page";
        label.append(all, text);
        all.addEventListener("change", () => {
            for (const box of head.closest("table").querySelectorAll("td.choice input")) box.checked = all.checked;
        });
        head.replaceChildren(label);
    }
};
chooseAll();

const filter = document.querySelector("form.filter");
if (filter) {
    const typed = filter.elements.q;
    let waiting = 0, asked = 0;
    const find = async () => {
        const mine = ++asked;
        const address = new URL(filter.getAttribute("action"), location.href);
        address.search = new URLSearchParams(new FormData(filter)).toString();
        const answer = await fetch(address).catch(() => null);
        if (mine !== asked) return;
        if (!answer || !answer.ok) {
            filter.submit();
            return;
        }
        const page = new DOMParser().parseFromString(await answer.text(), "text/html");
        const found = page.getElementById("found");
        if (!found || mine !== asked) return;
        document.getElementById("found").replaceWith(document.adoptNode(found));
        chooseAll();
        document.getElementById("told").textContent = page.getElementById("told").textContent;
        history.replaceState(null, "", address);
    };
    typed.addEventListener("input", () => {
        clearTimeout(waiting);
        waiting = setTimeout(find, 120);
    });
    document.addEventListener("keydown", (event) => {
        if (event.key !== "/" || event.ctrlKey || event.metaKey || event.altKey || /^(INPUT|TEXTAREA|SELECT)$/.test(event.target.tagName)) return;
        event.preventDefault();
        typed.focus();
        typed.select();
    });
}

for (const form of document.querySelectorAll("form[data-limit]")) {
    const file = form.elements.file, most = Number(form.dataset.limit);
    file.addEventListener("change", () => {
        const size = file.files.length ? file.files[0].size : 0;
        file.setCustomValidity(size > most ? `The file has ${size} bytes; this image takes ${most} at most.` : "");
        file.reportValidity();
    });
}
