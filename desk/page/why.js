// What a refusal or a remark is about: the tool says it in English; its sentences are given here in the other languages.
// {0} and {1} are the numbers and tiles in a sentence, which stay. A sentence that is not known stands as the tool has it.
import { language } from "./words.js";

const SENTENCES = [
  ["under 4 bytes", "4 バイト未満", "4바이트 미만", "不足 4 个字节"],
  ["an empty input", "空の入力", "빈 입력", "输入为空"],
  ["m over 4", "副露の数が 4 を超える", "후로 수가 4를 넘음", "副露数超过 4"],
  ["a length not m's: {0} bytes, with {1} {2} are needed", "長さが合わない: {0} バイト、{1} なら {2} バイト必要", "길이가 맞지 않음: {0}바이트, {1}이면 {2}바이트가 필요", "长度不符：{0} 个字节，{1} 时需要 {2} 个"],
  ["indicator over 33", "ドラ表示牌が 33 を超える", "도라 표시패가 33을 넘음", "宝牌指示牌超过 33"],
  ["winning tile over 33", "和了牌が 33 を超える", "화료패가 33을 넘음", "和牌超过 33"],
  ["tile of a meld over 33", "副露の牌が 33 を超える", "후로의 패가 33을 넘음", "副露的牌超过 33"],
  ["concealed tile over 33", "手の内の牌が 33 を超える", "손 안의 패가 33을 넘음", "手里的牌超过 33"],
  ["riichi 3", "立直が 3", "리치가 3", "立直为 3"],
  ["situation over 4", "状況が 4 を超える", "상황이 4를 넘음", "状况超过 4"],
  ["a chi with no run from that tile", "その牌からは順子にならないチー", "그 패에서는 슌쯔가 되지 않는 치", "从那张牌不成顺子的吃"],
  ["tsumo with discarder not 0", "ツモなのに放銃者が 0 でない", "쯔모인데 방총자가 0이 아님", "自摸而放铳者不为 0"],
  ["ron with discarder equal to winner", "放銃者が和了者と同じ", "방총자가 화료자와 같음", "放铳者与和牌者相同"],
  ["a padding bit set", "余りのビットが立っている", "남는 비트가 켜져 있음", "填充位被置位"],
  ["{0} after {1}", "{1}の後に{0}", "{1} 뒤에 {0}", "{1}之后是{0}"],
  ["{0} of {1}", "{1} が {0} 枚", "{1}이 {0}장", "{1} 有 {0} 张"],
  ["riichi without a closed hand", "門前でない立直", "멘젠이 아닌 리치", "非门清的立直"],
  ["double riichi with a meld", "副露のあるダブル立直", "후로가 있는 더블리치", "有副露的两立直"],
  ["rinshan on ron", "ロンの嶺上", "론인데 영상", "荣和的岭上"],
  ["rinshan with riichi", "立直しての嶺上", "리치한 영상", "立直的岭上"],
  ["rinshan without a kan", "槓のない嶺上", "깡이 없는 영상", "没有杠的岭上"],
  ["chankan on tsumo", "ツモの槍槓", "쯔모인데 창깡", "自摸的抢杠"],
  ["chankan with the winning tile's kind more than once", "和了牌と同じ牌がほかにもある槍槓", "화료패와 같은 패가 더 있는 창깡", "和牌的种类多于一张的抢杠"],
  ["first turn with ron", "第一巡のロン", "첫 순의 론", "第一巡的荣和"],
  ["first turn with a meld", "副露のある第一巡", "후로가 있는 첫 순", "有副露的第一巡"],
  ["first turn with riichi", "立直しての第一巡", "리치한 첫 순", "立直的第一巡"],
  ["neither a pair and groups, nor seven pairs, nor thirteen orphans", "雀頭と面子でも、七対子でも、国士無双でもない", "머리와 몸통도, 치또이츠도, 국사무쌍도 아님", "既不是雀头和面子，也不是七对子或国士无双"],
  ["{0} reading", "読みは {0} 個", "읽기 {0}개", "{0} 个读法"],
  ["{0} readings", "読みは {0} 個", "읽기 {0}개", "{0} 个读法"],
  ["dealer {0} over 3", "親 {0} が 3 を超える", "친 {0}이 3을 넘음", "庄家 {0} 超过 3"],
  ["wind {0} over 1", "場風 {0} が 1 を超える", "장풍 {0}이 1을 넘음", "场风 {0} 超过 1"],
  ["{0} over 33", "{0} が 33 を超える", "{0}이 33을 넘음", "{0} 超过 33"],
  ["200 hands are finished", "200 局が終わっている", "200국이 끝남", "已完成 200 局"],
  ["it is over", "対局は終わっている", "대국이 끝났음", "对局已结束"],
  ["seat {0} over 3", "席 {0} が 3 を超える", "자리 {0}이 3을 넘음", "座位 {0} 超过 3"],
  ["seat {0} has {1}", "席 {0} は {1} 点", "자리 {0}은 {1}점", "座位 {0} 有 {1} 点"],
  ["seat {0} has declared, the record has no riichi", "席 {0} は立直したが、記録に立直がない", "자리 {0}은 리치했으나 기록에 리치가 없음", "座位 {0} 已立直，记录里没有立直"],
  ["the record has riichi, seat {0} has not declared", "記録に立直があるが、席 {0} は立直していない", "기록에 리치가 있으나 자리 {0}은 리치하지 않음", "记录里有立直，座位 {0} 没有立直"],
  ["seat {0} is holder and feeder", "席 {0} が持つ人でも鳴かせた人でもある", "자리 {0}이 가진 사람이자 울게 한 사람", "座位 {0} 既是持有者又是供牌者"],
  ["seat {0} is named for yaku {1} of seat {2}", "席 {2} の役 {1} には席 {0} が指定済み", "자리 {2}의 역 {1}에는 자리 {0}이 이미 지정됨", "座位 {2} 的役 {1} 已指定座位 {0}"],
  ["seat {0}", "席 {0}", "자리 {0}", "座位 {0}"],
  ["nothing is booked yet", "まだ何も記帳されていない", "아직 아무것도 기장되지 않음", "还没有记账"],
  ["a riichi has been accepted since", "その後に立直が受け付けられた", "그 뒤에 리치가 접수됨", "其后已受理立直"],
  ["a pao has been accepted since", "その後に責任払いが受け付けられた", "그 뒤에 책임 지불이 접수됨", "其后已受理包牌"],
  ["supersedes entry {0}", "項目 {0} に代わる", "항목 {0}을 대신함", "取代条目 {0}"],
  ["a chombo, declared and not ready: seat {0}", "チョンボ、立直して聴牌でない: 席 {0}", "촌보, 리치하고 텐파이가 아님: 자리 {0}", "错和，立直而未听牌：座位 {0}"],
  ["sticks and counters are seat {0}'s", "供託と積み棒は席 {0} のもの", "공탁과 본장은 자리 {0}의 것", "供托和本场归座位 {0}"],
  ["pao: seat {0}, the feeder of seat {1}'s yaku {2}, pays the whole, with the counters", "責任払い: 席 {1} の役 {2} を鳴かせた席 {0} が、積み棒とともに全額を払う", "책임 지불: 자리 {1}의 역 {2}을 울게 한 자리 {0}이 본장과 함께 전부 지불", "包牌：给座位 {1} 的役 {2} 供牌的座位 {0} 连同本场全部支付"],
  ["pao: seat {0}, the feeder of seat {1}'s yaku {2}, pays the whole", "責任払い: 席 {1} の役 {2} を鳴かせた席 {0} が全額を払う", "책임 지불: 자리 {1}의 역 {2}을 울게 한 자리 {0}이 전부 지불", "包牌：给座位 {1} 的役 {2} 供牌的座位 {0} 全部支付"],
  ["pao: seat {0}, the feeder of seat {1}'s yaku {2}, pays all, as the discarder too", "責任払い: 席 {1} の役 {2} を鳴かせ、放銃もした席 {0} が全額を払う", "책임 지불: 자리 {1}의 역 {2}을 울게 하고 방총도 한 자리 {0}이 전부 지불", "包牌：给座位 {1} 的役 {2} 供牌又放铳的座位 {0} 全部支付"],
  ["pao: seat {0}, the feeder of seat {1}'s yaku {2}, pays half, seat {3} the other half and the counters", "責任払い: 席 {1} の役 {2} を鳴かせた席 {0} が半分、席 {3} が残りと積み棒を払う", "책임 지불: 자리 {1}의 역 {2}을 울게 한 자리 {0}이 절반, 자리 {3}이 나머지와 본장을 지불", "包牌：给座位 {1} 的役 {2} 供牌的座位 {0} 付一半，座位 {3} 付另一半和本场"],
  ["pao: seat {0}, the feeder of seat {1}'s yaku {2}, pays half, seat {3} the other half", "責任払い: 席 {1} の役 {2} を鳴かせた席 {0} が半分、席 {3} が残りを払う", "책임 지불: 자리 {1}의 역 {2}을 울게 한 자리 {0}이 절반, 자리 {3}이 나머지를 지불", "包牌：给座位 {1} 的役 {2} 供牌的座位 {0} 付一半，座位 {3} 付另一半"],
  ["record {0}: {1}", "{0} 番目の手: {1}", "{0}번째 손패: {1}", "第 {0} 手：{1}"],
  ["a record isn't ron", "ロンでない手がある", "론이 아닌 손패가 있음", "有一手不是荣和"],
  ["two have one winner", "二つの手の和了者が同じ", "두 손패의 화료자가 같음", "两手的和牌者相同"],
  ["they differ in discarder", "放銃者が違う", "방총자가 다름", "放铳者不同"],
  ["they differ in winning tile", "和了牌が違う", "화료패가 다름", "和牌不同"],
  ["they differ in indicator", "ドラ表示牌が違う", "도라 표시패가 다름", "宝牌指示牌不同"],
  ["they differ in situation", "状況が違う", "상황이 다름", "状况不同"],
  ["kind over 6", "種類が 6 を超える", "종류가 6을 넘음", "种类超过 6"],
  ["win argument not 0", "和了の引数が 0 でない", "화료의 인수가 0이 아님", "和牌的参数不为 0"],
  ["bytes missing", "バイトが足りない", "바이트가 모자람", "缺少字节"],
  ["pao argument not 0", "責任払いの引数が 0 でない", "책임 지불의 인수가 0이 아님", "包牌的参数不为 0"],
  ["a zero bit of a pao set", "責任払いの 0 のビットが立っている", "책임 지불의 0 비트가 켜져 있음", "包牌的零位被置位"],
  ["no records or over three", "手がないか三つを超える", "손패가 없거나 셋을 넘음", "没有手牌或超过三手"],
  ["correction argument not 0", "訂正の引数が 0 でない", "정정의 인수가 0이 아님", "更正的参数不为 0"],
  ["a correction of no win, draw, chombo or multiple ron", "和了、流局、チョンボ、複数のロンでない訂正", "화료, 유국, 촌보, 여러 론이 아닌 정정", "不是和牌、流局、错和或多家荣和的更正"],
];

/** A sentence as a pattern; the numbers and tiles in it are found again. */
function pattern(sentence) {
  const bare = sentence.replace(/[.*+?^$()|[\]\\]/g, "\\$&");
  return new RegExp(`^${bare.replace(/\{\d\}/g, "(.+)")}$`);
}
const PATTERNS = SENTENCES.map(([english]) => pattern(english));

/** One sentence in the language; what stands in it is looked up too. */
function one(text) {
  const at = PATTERNS.findIndex((known) => known.test(text));
  if (at < 0) return text;
  const found = text.match(PATTERNS[at]).slice(1);
  return SENTENCES[at][[1, 0, 2, 3][language() - 1]].replace(/\{(\d)\}/g, (_, place) => one(found[place]));
}

/** The sentences of a text, with semicolons between them. */
export const why = (text) => text.split("; ").map(one).join("; ");
