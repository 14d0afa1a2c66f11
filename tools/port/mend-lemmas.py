#!/usr/bin/env python3
"""Mends the lemmas that do not check as port.py and respell.py leave them: mostly an argument `_` that the newer check does not find, since it
no longer shows in the type as it computes (any value of its type serves). Statements stay as they are, but for one name of a type. At the top of the repository; a second
run changes nothing. Each text stands in its file as often as is said here.

usage: mend-lemmas.py"""
MENDS = {
    'grown/proofs/ArrayStep.antt': [
        ('len_good _ p h\n', 'len_good 0 p h\n', 1),
        ('is_empty_good _ p\n', 'is_empty_good 0 p\n', 1),
        ('is_full_good _ p\n', 'is_full_good 0 p\n', 1),
    ],
    'grown/proofs/Departures.antt': [
        ('at_queue z.wakers σ _ _ (', 'at_queue z.wakers σ _ z.wakers.contexts (', 2),
        ('(same_list z.wakers _)', '(same_list z.wakers z.wakers.contexts)', 1),
    ],
    'grown/proofs/Meetings.antt': [
        ('at_queue z.wakers σ _ _ (', 'at_queue z.wakers σ _ z.wakers.contexts (', 2),
        ('at_queue z.wakers ρ q _ (', 'at_queue z.wakers ρ q z.wakers.contexts (', 1),
        ('list_here z.wakers ρ q _ ∙', 'list_here z.wakers ρ q z.wakers.contexts ∙', 1),
        ('list_aside z.wakers ρ q _;', 'list_aside z.wakers ρ q z.wakers.contexts;', 1),
    ],
    'claims/proofs/QuestionSteps.antt': [
        ('use mathlib.Core.Path.{◌≡◌, sym, ap, ◌∙◌}\n', 'use mathlib.Core.Path.{◌≡◌, sym, ap, ◌∙◌, subst}\n', 1),
        ('      let b = a.between (tail_one S F a.tail (rw g at C.tail)) in\n'
         '      over r h t C _ (inr (rw (length_is S F w v a.n a.k a.tail a.head b.0 b.1) b.2), u))\n',
         '      let q = a.between (tail_one S F a.tail (rw g at C.tail)) in\n'
         '      let P : ℕ → Type 0 = λ m. Sometime (λ x. x ≡ m) b.counts in\n'
         '      over r h t C _ (inr (subst P (sym (length_is S F w v a.n a.k a.tail a.head q.0 q.1)) q.2), u))\n', 1),
    ],
    'handover/proofs/Bystanders.antt': [
        ('(listed z.wakers σ)) _ (λ l.', '(listed z.wakers σ)) z.wakers.contexts (λ l.', 2),
        ('++ (t ∷ [])) _ (λ l.', '++ (t ∷ [])) z.wakers.contexts (λ l.', 1),
        ('ahead = still _ }', 'ahead = still z.wakers.contexts }', 3),
    ],
    # a type, which port.py spelled as a value
    'handover/proofs/Fate.antt': [(' Goes_on ', ' GoesOn ', 9)],
    'handover/proofs/Joining.antt': [
        ('list_here w σ (queue_of q) _ ∙', 'list_here w σ (queue_of q) w.contexts ∙', 1),
    ],
    'handover/proofs/Picking.antt': [
        ('(queue_of (without v queue)) _ ∙', '(queue_of (without v queue)) M.now.zero.wakers.contexts ∙', 1),
    ],
}

left = 0
for path, mends in MENDS.items():
    path = 'crates/' + path
    text = open(path, encoding='utf8').read()
    for old, new, times in mends:
        if text.count(old) == times:
            text = text.replace(old, new)
        elif text.count(new) != times:
            left += 1
            print(f'{path}: stands {text.count(old)} times: {old}')
    open(path, 'w', encoding='utf8').write(text)
print(f'mend-lemmas: {left} left')
