// The circumstances of a node when a line was written: what the reasons for a difference look at. The function's own text
// runs in the frame.
"use strict";
globalThis.CepageBrowser ??= {};
CepageBrowser.frame ??= [];

CepageBrowser.frame.push(function facts(run) {
    const { flags, sets, isValues } = run.kept;
    const { isRadio, groupOf, optionsOf, selectOf, isFlagged, isOff, chosenOf } = run.derived;
    const { formAbove, ownerOf, isOffByTree, keptValue } = run.derived;

    function radioFacts(node) {
        const group = groupOf(node);
        const flagged = group.filter(isFlagged);
        const turnedOn = (one) => flags.get(one) === false && one.hasAttribute("checked") && one.checked;
        return {
            derived: flagged.at(-1) === node, manyFlagged: flagged.length > 1,
            turnedOn: group.some(turnedOn), groupRequired: group.some((one) => one.hasAttribute("required")),
        };
    }

    const isSetOff = (option) => flags.get(option) === false;

    function selectFacts(select) {
        const options = optionsOf(select);
        const shown = [...select.options];
        const derived = chosenOf(select);
        return {
            multiple: select.multiple, sized: select.size > 1, derived: run.quote(derived.length ? derived[0].value : ""),
            derivedMissing: isMissing(select, options, derived), noneFlagged: !options.some(isFlagged),
            deepOption: shown.some((option) => selectOf(option) !== select),
            setOff: shown.some((option) => isSetOff(option) && option.hasAttribute("selected") && option.selected),
            placeholderBehind: isBehind(select, placeholderOf(select, options)),
        };
    }

    const placeholderOf = (select, [first]) => (first && first.parentNode === select && first.value === "" ? first : null);

    // Whether an `hr` or an optgroup stands before a child of a select.
    function isBehind(select, child) {
        const children = [...select.children];
        return children.slice(0, children.indexOf(child) + 1).some((one) => ["hr", "optgroup"].includes(one.localName));
    }

    // Whether a required select has nothing chosen, or its placeholder alone.
    function isMissing(select, options, chosen) {
        if (!select.hasAttribute("required")) return false;
        return !chosen.length || (!select.multiple && placeholderOf(select, options) === chosen[0]);
    }

    function optionFacts(option) {
        const group = option.closest("optgroup[disabled]");
        const select = option.closest("select");
        return {
            groupFurtherUp: Boolean(group) && option.parentNode !== group && !isOff(option),
            selectOff: Boolean(select) && select.matches(":disabled") && !isOff(option),
        };
    }

    function kindFacts(node) {
        if (isRadio(node)) return { kept: run.quote(keptValue(node)), ...radioFacts(node) };
        if (node instanceof HTMLSelectElement) return selectFacts(node);
        if (node instanceof HTMLOptionElement) return optionFacts(node);
        if (node instanceof HTMLTextAreaElement) return { kept: run.quote(keptValue(node)) };
        if (node instanceof HTMLInputElement) return { kept: run.quote(keptValue(node)), derived: isFlagged(node) };
        if (!(node instanceof HTMLFormElement)) return {};
        const others = run.elementsOf(node).filter((one) => !run.is.listed(one));
        const constructed = run.constructed().filter((one) => ownerOf(one) === node);
        return { otherControls: others.map(run.number), constructed: constructed.map(run.number) };
    }

    function formFacts(node) {
        if (!run.is.submittable(node)) return {};
        const [above, owner] = [formAbove(node), ownerOf(node)].map((form) => (form ? run.number(form) : "null"));
        const isCut = run.is.text(node) && node.maxLength >= 0 && node.value.length <= node.maxLength
            && keptValue(node).startsWith(node.value);
        return {
            formAbove: above, owner, offByTree: isOffByTree(node), empty: run.is.text(node) && node.value === "",
            cut: isCut,
        };
    }

    // A class that disables shadow is that of the `is` value, and not of the local name.
    function isOfAnother(node) {
        const owner = isValues.has(node) && run.definitionNamed(isValues.get(node));
        return Boolean(owner && owner.disabled.includes("shadow") && owner.defined.extended !== run.bare(node).localName);
    }

    run.facts = (node) => {
        if (!(node instanceof Element)) return { kind: run.bare(node).nodeName, number: run.number(node) };
        const bare = run.bare(node);
        const has = (name) => bare.hasAttribute(name);
        const owner = run.classOf(node);
        return {
            kind: bare.localName, type: run.typeOf(node), number: run.number(node),
            named: Boolean(bare.getAttribute("name")), disabled: bare.matches(":disabled"),
            readonly: has("readonly"), required: has("required"),
            form: has("form"), connected: bare.isConnected, defined: bare.matches(":defined"), lost: run.isLost(node),
            constructing: run.isConstructing(node), internals: run.internals.has(node), associated: run.isAssociated(node),
            autonomous: Boolean(owner && owner.defined.extended === undefined),
            extendsAssociated: Boolean(owner && owner.associated && owner.defined.extended !== undefined),
            isOfAnother: isOfAnother(node), is: isValues.get(node), viewed: Boolean(bare.ownerDocument.defaultView),
            ...Object.fromEntries(Object.entries(sets).map(([name, set]) => [name, set.has(node)])),
            ...formFacts(node), ...kindFacts(node),
        };
    };
});
