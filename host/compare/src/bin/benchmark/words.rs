//! What the texts are drawn from.

use std::sync::LazyLock;

use tilghorz_comparison::sequences::well_known;

/// Words of a language.
pub type Words = LazyLock<Vec<&'static str>>;

/// English words.
pub static ENGLISH: Words = LazyLock::new(|| {
    "\
    the to and you that it is in of for on have was so what not but are with just they we be this like do can \
    at my all know get if when about me there would out one no up from how going see think good time here really \
    yeah because tomorrow meeting message morning thanks please already something everyone weekend train station \
    coffee question answer later tonight never again between another remember"
    .split_whitespace()
    .collect()
});

/// Russian words.
pub static RUSSIAN: Words = LazyLock::new(|| {
    "\
    и в не на я что он с как это по но они мы она так его все ты за у из же от бы когда только меня уже если или \
    вот для нет был сегодня завтра вечером утром спасибо пожалуйста вопрос ответ сообщение встреча поезд работа \
    понимаю хорошо конечно подожди потом никогда вместе человек время"
    .split_whitespace()
    .collect()
});

/// Chinese words.
pub static CHINESE: Words = LazyLock::new(|| {
    "\
    我 你 他 的 是 不 在 有 这 那 我们 你们 今天 明天 晚上 早上 谢谢 请 问题 回答 消息 会议 火车 工作 知道 \
    觉得 可以 没有 什么 怎么 时候 已经 因为 所以 但是 如果 一起 朋友 家 吃饭 喝茶 电话 以后 刚才 真的 好"
    .split_whitespace()
    .collect()
});

/// Emoji of chats: without a variation entry, emoji-default, text-default with and without FE0F, keycap, flag, with
/// a modifier, joined.
pub const IN_CHATS: [&str; 24] = [
    "\u{1F602}",
    "\u{1F62D}",
    "\u{1F60D}",
    "\u{1F64F}",
    "\u{1F389}",
    "\u{1F914}",
    "\u{1F525}",
    "\u{1F44D}",
    "\u{1F44D}\u{1F3FD}",
    "\u{1F44F}\u{1F3FB}",
    "\u{2764}\u{FE0F}",
    "\u{2764}",
    "\u{2600}\u{FE0F}",
    "\u{263A}\u{FE0F}",
    "\u{263A}",
    "\u{270C}\u{FE0F}",
    "\u{2705}",
    "\u{26A0}\u{FE0F}",
    "\u{2615}",
    "\u{2615}\u{FE0F}",
    "1\u{FE0F}\u{20E3}",
    "\u{1F1E9}\u{1F1EA}",
    "\u{1F937}\u{200D}\u{2642}\u{FE0F}",
    "\u{1F469}\u{200D}\u{1F4BB}",
];

/// Well-known emoji sequences.
pub static SEQUENCES: LazyLock<Vec<String>> = LazyLock::new(|| well_known().collect());
